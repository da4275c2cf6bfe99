main() {
    answers();
    tests();
}

say(n, x)
    if(n == 1)
        test("on top after place 3: your answer", x, 3);
