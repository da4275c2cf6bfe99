main() {
    auto x;
    x = getchar();
    if(x == 'a') {
        putchar('b');
}
