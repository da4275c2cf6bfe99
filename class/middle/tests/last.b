main() {
    test("middle(1, 3, 2)", middle(1, 3, 2), 2);
    test("middle(3, 1, 2)", middle(3, 1, 2), 2);
    tests();
}
