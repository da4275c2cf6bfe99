printn(n) putchar(n + '0');
main() {
    printn(5);
}
