main() {
    test("blanks of word", blanks("word"), 0);
    test("blanks of no character", blanks(""), 0);
    test("blanks of a*tb", blanks("a*tb"), 0);
    tests();
}
