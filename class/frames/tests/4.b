main() {
    answers();
    tests();
}

say(n, x)
    if(n == 4)
        test("the address of a: your answer", x, 14);
