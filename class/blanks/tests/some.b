main() {
    test("blanks of a bee sat", blanks("a bee sat"), 2);
    test("blanks of one two", blanks("one two"), 1);
    tests();
}
