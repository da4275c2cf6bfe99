main() {
    test("days(0)", days(0), 0);
    test("days(13)", days(13), 0);
    test("days(-1)", days(-1), 0);
    tests();
}
