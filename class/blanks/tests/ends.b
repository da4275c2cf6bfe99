main() {
    test("blanks of < a >", blanks(" a "), 2);
    test("blanks of < >", blanks(" "), 1);
    tests();
}
