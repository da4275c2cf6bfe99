main() {
    test("cube(0)", cube(0), 0);
    test("cube(2)", cube(2), 8);
    tests();
}
