main() {
    test("length of no character", length(""), 0);
    test("length of x", length("x"), 1);
    test("length of ab", length("ab"), 2);
    tests();
}
