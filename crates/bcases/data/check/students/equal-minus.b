main() {
    auto n;
    n = getchar();
    if(n =- 1)
        putchar('e');
}
