/* The first 40 digits of e, by adding up 1, 1 / 1, that divided by 2, that divided by 3, and so on. */
places 44;
term[44] 1;
sum[44];

main() {
    extrn sum;
    auto k, i;

    k = 1;
    while(add())
        divide(k++);
    printn(sum[0], 10);
    putchar('.');
    i = 1;
    while(i <= 40)
        printn(sum[i++], 10);
    putchar('*n');
}

/* Adds the term to the sum, from the last place on. Tells whether there was anything to add. */
add() {
    extrn places, term, sum;
    auto i, d, carry, some;

    carry = some = 0;
    i = places;
    while(i >= 0) {
        d = sum[i] + term[i] + carry;
        some =| term[i];
        carry = d > 9;
        sum[i--] = carry ? d - 10 : d;
    }
    return(some);
}

/* Divides the term, from the first place on. */
divide(k) {
    extrn places, term;
    auto i, rest;

    i = rest = 0;
    while(i <= places) {
        rest = rest * 10 + term[i];
        term[i++] = rest / k;
        rest =% k;
    }
}
