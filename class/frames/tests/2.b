main() {
    answers();
    tests();
}

say(n, x)
    if(n == 2)
        test("the address of x: your answer", x, 10);
