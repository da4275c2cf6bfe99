main() {
    test("palin of Anna", palin("Anna"), 0);
    test("palin of AnnA", palin("AnnA"), 1);
    tests();
}
