main() {
    test("isleap(2000)", isleap(2000), 1);
    test("isleap(1600)", isleap(1600), 1);
    test("isleap(400)", isleap(400), 1);
    tests();
}
