main() {
    auto x, y;

    x = 9;
    y = 4;
    order(&x, &y);
    test(x == 9 & y == 4 ? "nothing was stored at p and q: the word at p" : "the word at p", x, 4);
    test("the word at q", y, 9);
    x = 2;
    y = 1;
    order(&x, &y);
    test("the word at p", x, 1);
    test("the word at q", y, 2);
    tests();
}
