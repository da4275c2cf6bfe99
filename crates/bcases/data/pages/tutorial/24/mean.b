/* The mean of the numbers in the input. */
main() {
    auto n, sum, count;

    sum = count = 0;
    while(getnum(&n)) {
        sum =+ n;
        count++;
    }
    printn(sum / count, 10);
    putchar('*n');
}
