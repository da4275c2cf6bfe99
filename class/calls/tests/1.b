main() {
    answers();
    tests();
}

say(n, x)
    if(n == 1)
        test("f(4): your answer", x, 5);
