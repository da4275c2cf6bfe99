main() {
    test("digits(1972)", digits(1972), 19);
    test("digits(10001)", digits(10001), 2);
    test("digits(32767)", digits(32767), 25);
    tests();
}
