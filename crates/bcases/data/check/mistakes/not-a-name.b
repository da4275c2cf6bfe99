main() {
    auto not;
    not = 1;
    printn(not, 10);
    putchar('a' 'b');
}
