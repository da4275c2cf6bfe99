main() {
    test("isleap(1973)", isleap(1973), 0);
    test("isleap(1974)", isleap(1974), 0);
    test("isleap(1)", isleap(1), 0);
    tests();
}
