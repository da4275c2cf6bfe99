/* The sum of the numbers from a digit down to 1. */
main() {
    auto n, sum;

    n = getchar() - '0';
    sum = 0;
    while(n > 0)
        sum =+ n--;
    printn(sum, 10);
    putchar('*n');
}
