main() {
    answers();
    tests();
}

say(n, x)
    if(n == 4)
        test("active calls of f, at most: your answer", x, 4);
