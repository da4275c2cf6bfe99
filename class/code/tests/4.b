main() {
    answers();
    tests();
}

say(n, x)
    if(n == 4)
        test("the place after place 9: your answer", x, 12);
