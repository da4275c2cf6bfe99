main() {
    auto n, x;
    n = getchar();
    x = if(n > 2) 1; else 0;
    printn(x, 10);
}
