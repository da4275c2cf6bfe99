main() {
    auto x;
    x = 1;
    if(x) {
        putchar('a');
}
