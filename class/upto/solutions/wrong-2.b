/* Wrong: the loop has no braces, so i stays 1 in it. */
/* Told: It never ends: after */
main() {
    auto n, i, sum;

    n = getchar() - '0';
    i = 1;
    sum = 0;
    while(i <= n)
        sum = sum + i;
        i++;
    printn(sum, 10);
    putchar('*n');
}
