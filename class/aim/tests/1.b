main() {
    answers();
    tests();
}

say(n, x)
    if(n == 1)
        test("x in line 8: your answer", x, 20);
