main() {
    answers();
    tests();
}

say(n, x)
    if(n == 3)
        test("words before place 4: your answer", x, 2);
