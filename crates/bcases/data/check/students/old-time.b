main() {
    auto now 1;
    time(now);
    printn(now[0], 10);
}
