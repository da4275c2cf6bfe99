/* Wrong: it is as it was, so i stays 1 in the loop. */
/* Told: It never ends: after */
main() {
    auto n, i;

    n = getchar() - '0';
    i = 1;
    while(i <= 5) {
        printn(n * i, 10);
        putchar(' ');
    }
    i++;
    putchar('*n');
}
