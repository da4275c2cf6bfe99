main() {
    answers();
    tests();
}

say(n, x)
    if(n == 3)
        test("v[2] in line 11: your answer", x, 30 + 3);
