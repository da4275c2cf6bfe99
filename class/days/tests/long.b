main() {
    test("days(1)", days(1), 31);
    test("days(3)", days(3), 31);
    test("days(5)", days(5), 31);
    test("days(7)", days(7), 31);
    test("days(8)", days(8), 31);
    test("days(10)", days(10), 31);
    test("days(12)", days(12), 31);
    tests();
}
