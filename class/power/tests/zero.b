main() {
    test("power(5, 0)", power(5, 0), 1);
    test("power(0, 0)", power(0, 0), 1);
    test("power(0, 3)", power(0, 3), 0);
    tests();
}
