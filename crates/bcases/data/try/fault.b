main() {
    auto days;

    days = 7
    printn(days * 24, 10);
}
