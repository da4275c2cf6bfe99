main() {
    auto h, m, total;
    h = 3;
    m = 20;
    h * 60 + m = total;
    printn(total, 10);
}
