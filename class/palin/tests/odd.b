main() {
    test("palin of rotor", palin("rotor"), 1);
    test("palin of abc", palin("abc"), 0);
    test("palin of abcbd", palin("abcbd"), 0);
    tests();
}
