main() {
    test("isleap(1972)", isleap(1972), 1);
    test("isleap(1996)", isleap(1996), 1);
    test("isleap(4)", isleap(4), 1);
    tests();
}
