main() {
    auto n;
    n = getchar();
    if(n > 65535)
        putchar(n);
}
