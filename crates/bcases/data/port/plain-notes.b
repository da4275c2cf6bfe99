main() {
    auto a, b;
    a = b = 1;
    if(a && b) putchar('\n');
}
