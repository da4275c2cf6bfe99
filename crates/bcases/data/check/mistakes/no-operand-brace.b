main() {
    auto x;
    x = 1;
    if(x) {
        x = x + }
    putchar('a');
}
