main() {
    test("days(4)", days(4), 30);
    test("days(6)", days(6), 30);
    test("days(9)", days(9), 30);
    test("days(11)", days(11), 30);
    tests();
}
