main() {
    auto x, y;

    x = 7;
    y = 7;
    order(&x, &y);
    test("the word at p", x, 7);
    test("the word at q", y, 7);
    tests();
}
