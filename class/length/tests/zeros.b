main() {
    test("length of a 0 between", length("a*0b"), 3);
    tests();
}
