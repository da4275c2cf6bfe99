main() {
    test("middle(5, 5, 5)", middle(5, 5, 5), 5);
    test("middle(5, 9, 5)", middle(5, 9, 5), 5);
    test("middle(9, 5, 9)", middle(9, 5, 9), 9);
    tests();
}
