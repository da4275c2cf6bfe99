main() {
    auto c;
    c = 040040;
    write(c);
    write(040040);
    write(012);
}
