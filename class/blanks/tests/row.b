main() {
    test("blanks of four in a row", blanks("a    b"), 4);
    test("blanks of five alone", blanks("     "), 5);
    tests();
}
