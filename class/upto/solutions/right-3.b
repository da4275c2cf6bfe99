/* The sum of the numbers from 1 to a digit. */
main() {
    auto n, i, sum;

    n = getchar() - '0';
    i = 1;
    sum = 0;
    while(i <= n) {
        sum = sum + i;
        i++;
    }
    printf("%d*n", sum);
}
