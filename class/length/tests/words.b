main() {
    test("length of hello", length("hello"), 5);
    test("length of two words", length("two words"), 9);
    tests();
}
