main() {
    auto c, d, n;
    n = 0;
    c = getchar();
    n = n * 10 + c;
    n = n * 10 + c - '0';
    n = c * 2 + n;
    d = getchar() - '0';
    n = n * 10 + d;
    printn(n + c + c / 16 + c % 16, 10);
}
