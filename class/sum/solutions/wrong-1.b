/* Wrong: where there is no number, it divides by 0. */
/* Told: This means: a division by 0. */
main() {
    auto n, count, sum;

    count = sum = 0;
    while(getnum(&n)) {
        count++;
        sum =+ n;
    }
    printn(count, 10);
    putchar(' ');
    printn(sum, 10);
    putchar(' ');
    printn(sum / count, 10);
    putchar('*n');
}
