main() {
    answers();
    tests();
}

say(n, x)
    if(n == 1)
        test("32767 + 1: your answer", x, 32767 + 1);
