main() {
    test("middle(1, 2, 3)", middle(1, 2, 3), 2);
    test("middle(3, 2, 1)", middle(3, 2, 1), 2);
    tests();
}
