main() {
    test("power(2, 14)", power(2, 14), 16384);
    test("power(-2, 15)", power(-2, 15), -32768);
    test("power(181, 2)", power(181, 2), 32761);
    tests();
}
