main() {
    auto x, y;
    x = 6; y = 3;
    x=*y; printn(x, 10); putchar(' ');
    x=&y; printn(x, 10);
}
