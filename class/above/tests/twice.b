given[3] 1, 2, 3, 100;

main() {
    extrn given;

    test("above 1 2 3 100", above(given, 4), 1);
    test("above 1 2 3 100, once more", above(given, 4), 1);
    test("above 1 2", above(given, 2), 1);
    tests();
}
