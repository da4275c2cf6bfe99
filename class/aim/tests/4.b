main() {
    answers();
    tests();
}

say(n, x)
    if(n == 4)
        test("x in line 12: your answer", x, 2);
