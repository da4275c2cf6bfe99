/* Wrong: the condition has read both digits, so a third and a fourth are written. */
/* Told: wrote  (an empty line) */
main() {
    if(getchar() > getchar())
        putchar(getchar());
    else
        putchar(getchar());
    putchar('*n');
}
