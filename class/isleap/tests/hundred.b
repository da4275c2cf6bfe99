main() {
    test("isleap(1900)", isleap(1900), 0);
    test("isleap(1700)", isleap(1700), 0);
    test("isleap(100)", isleap(100), 0);
    tests();
}
