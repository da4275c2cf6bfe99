main() {
    answers();
    tests();
}

say(n, x)
    if(n == 2)
        test("calls of f for f(4): your answer", x, 9);
