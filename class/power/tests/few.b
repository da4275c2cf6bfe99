main() {
    test("power(2, 3)", power(2, 3), 8);
    test("power(3, 2)", power(3, 2), 9);
    test("power(10, 4)", power(10, 4), 10000);
    tests();
}
