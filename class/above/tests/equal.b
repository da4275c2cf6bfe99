given[3] 7, 7, 7, 9;

main() {
    extrn given;

    test("above 7 7 7", above(given, 3), 0);
    test("above 7", above(given, 1), 0);
    tests();
}
