main() {
    auto n;
    n = getchar();
    if(n !== 4)
        putchar(n);
}
