main() {
    answers();
    tests();
}

say(n, x)
    if(n == 2)
        test("v[1] in line 9: your answer", x, 20 + 5);
