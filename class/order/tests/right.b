main() {
    auto x, y;

    x = 4;
    y = 9;
    order(&x, &y);
    test("the word at p", x, 4);
    test("the word at q", y, 9);
    x = 9;
    y = 4;
    order(&y, &x);
    test("words in order already, p the higher address: the word at p", y, 4);
    test("the word at q", x, 9);
    tests();
}
