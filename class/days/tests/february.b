main() {
    test("days(2)", days(2), 28);
    tests();
}
