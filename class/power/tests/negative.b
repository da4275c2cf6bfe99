main() {
    test("power(-2, 3)", power(-2, 3), -8);
    test("power(-2, 4)", power(-2, 4), 16);
    test("power(-1, 0)", power(-1, 0), 1);
    tests();
}
