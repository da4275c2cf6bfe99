main() {
    answers();
    tests();
}

say(n, x)
    if(n == 5)
        test("2 + 3 ** 4: your answer", x, 2 + 3 * 4);
