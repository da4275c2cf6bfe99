main() {
    answers();
    tests();
}

say(n, x)
    if(n == 3)
        test("what up(2) writes: your answer", x, 2112);
