/* Wrong: the digit is a character, and not the number that it stands for. */
/* Told: wrote  1176 */
main() {
    auto n, i, sum;

    n = getchar();
    i = 1;
    sum = 0;
    while(i <= n) {
        sum = sum + i;
        i++;
    }
    printn(sum, 10);
    putchar('*n');
}
