main() {
    answers();
    tests();
}

say(n, x)
    if(n == 3)
        test("10 / 4 ** 4: your answer", x, 10 / 4 * 4);
