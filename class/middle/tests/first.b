main() {
    test("middle(2, 1, 3)", middle(2, 1, 3), 2);
    test("middle(2, 3, 1)", middle(2, 3, 1), 2);
    tests();
}
