main() {
    answers();
    tests();
}

say(n, x)
    if(n == 5)
        test("v[3] in line 13: your answer", x, 10 + 25);
