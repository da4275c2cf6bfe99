main() {
    answers();
    tests();
}

say(n, x)
    if(n == 5)
        test("what is in r: your answer", x, 14);
