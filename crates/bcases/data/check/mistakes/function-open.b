f() {
    putchar('a');

main() {
    f();
}
