main() {
    auto a, b;
    a = b = 1;
    if(a && b) printf("%d\n", 2);
}
