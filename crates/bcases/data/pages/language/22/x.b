main() {
    auto x, y;
    x = y = 3;
    x =+ 2; printn(x, 10); putchar(' ');
    x =<< 1; printn(x, 10); putchar(' ');
    y === 3; printn(y, 10);
}
