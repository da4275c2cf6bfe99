main() {
    auto n;
    scanf("%d", &n);
    printn(n, 10);
}
