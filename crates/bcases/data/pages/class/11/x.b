sum(a, b) {
    auto c;
    c = a + b;
}
main()
    printn(sum(2, 3), 10);
