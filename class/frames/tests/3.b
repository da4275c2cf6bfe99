main() {
    answers();
    tests();
}

say(n, x)
    if(n == 3)
        test("what is in v: your answer", x, 12);
