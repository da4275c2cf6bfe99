main() {
    test("palin of no character", palin(""), 1);
    test("palin of x", palin("x"), 1);
    tests();
}
