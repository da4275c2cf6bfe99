given[4] 0, 5, 20, 30, 0;

main() {
    extrn given;

    given[0] = -10;
    given[4] = -20;
    test("above -10 5 20 30 -20", above(given, 5), 2);
    test("above -10 5", above(given, 2), 1);
    tests();
}
