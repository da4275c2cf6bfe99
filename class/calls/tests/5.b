main() {
    answers();
    tests();
}

say(n, x)
    if(n == 5)
        test("n in up(3), after its call: your answer", x, 3);
