main() {
    answers();
    tests();
}

say(n, x)
    if(n == 5)
        test("what r returns: your answer", x, 200);
