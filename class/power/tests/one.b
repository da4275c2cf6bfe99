main() {
    test("power(7, 1)", power(7, 1), 7);
    test("power(1, 9)", power(1, 9), 1);
    test("power(0, 1)", power(0, 1), 0);
    tests();
}
