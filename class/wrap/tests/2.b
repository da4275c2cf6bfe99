main() {
    answers();
    tests();
}

say(n, x)
    if(n == 2)
        test("200 ** 200: your answer", x, 200 * 200);
