main() {
    test("digits(7)", digits(7), 7);
    test("digits(0)", digits(0), 0);
    test("digits(9)", digits(9), 9);
    tests();
}
