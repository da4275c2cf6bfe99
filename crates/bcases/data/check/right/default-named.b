main() {
    if(getchar()) goto default;
    putchar('a');
    default: putchar('b');
}
