main() {
    answers();
    tests();
}

say(n, x)
    if(n == 2)
        test("on top after place 4: your answer", x, 24);
