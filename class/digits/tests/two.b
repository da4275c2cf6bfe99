main() {
    test("digits(10)", digits(10), 1);
    test("digits(99)", digits(99), 18);
    test("digits(42)", digits(42), 6);
    tests();
}
