given[5] 12, 17, 9, 20, 14, 0;

main() {
    extrn given;

    test("above 12 17 9 20 14", above(given, 5), 2);
    given[3] = -1000;
    test("above 12 17 9, with -1000 after them", above(given, 3), 1);
    tests();
}
