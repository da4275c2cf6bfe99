main() {
    auto n;
    n = getchar();
    if(50000 >= n)
        putchar(n);
}
