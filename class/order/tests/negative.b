main() {
    auto x, y;

    x = -3;
    y = -5;
    order(&x, &y);
    test("the word at p", x, -5);
    test("the word at q", y, -3);
    x = 1;
    y = -1;
    order(&x, &y);
    test("the word at p", x, -1);
    test("the word at q", y, 1);
    x = -1;
    y = 1;
    order(&x, &y);
    test("the word at p", x, -1);
    test("the word at q", y, 1);
    tests();
}
