/* How many numbers the input has, their sum and their mean, with an if for none. */
main() {
    auto n, count, sum;

    count = 0;
    sum = 0;
    while(getnum(&n) != 0) {
        sum = sum + n;
        count++;
    }
    out(count, ' ');
    out(sum, ' ');
    if(count == 0)
        out(0, '*n');
    else
        out(sum / count, '*n');
}

out(n, c) {
    printn(n, 10);
    putchar(c);
}
