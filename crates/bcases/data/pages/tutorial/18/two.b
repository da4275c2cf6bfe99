word "hello";
main() {
    extrn word;

    printn('he', 10);
    putchar(' ');
    putchar('he');
    putchar('*n');
}
