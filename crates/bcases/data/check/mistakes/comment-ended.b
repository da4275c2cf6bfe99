/* main writes 1 /* a digit */ and a newline */
main() {
    printn(1, 10);
    putchar('*n');
}
