percent(part, all) {
    return(part / all * 100);
}
main() {
    auto n, w;
    n = 7;
    w = 3;
    printn(percent(n, w), 10);
    printn(100 * (n / w), 10);
    printn((n / (w + 1)) * 100, 10);
    printn(n / w * 100 + n % w, 10);
    printn(n / 10 * 10, 10);
    printn(n * 100 / w, 10);
    printn(n / w * 2, 10);
    printn(5 / 9 * (n - 32), 10);
    printn(9 / 5 * n, 10);
}
