main() {
    answers();
    tests();
}

say(n, x)
    if(n == 1)
        test("the address of n: your answer", x, 7);
