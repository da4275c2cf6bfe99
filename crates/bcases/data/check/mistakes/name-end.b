main() {
    auto n, end;
    end = 5;
    n = end);
    printn(n, 10);
}
