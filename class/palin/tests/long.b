main() {
    test("palin of never odd or even", palin("never odd or even"), 0);
    test("palin of neveroddoreven", palin("neveroddoreven"), 1);
    tests();
}
