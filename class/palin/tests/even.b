main() {
    test("palin of anna", palin("anna"), 1);
    test("palin of ab", palin("ab"), 0);
    test("palin of abba", palin("abba"), 1);
    test("palin of abca", palin("abca"), 0);
    tests();
}
