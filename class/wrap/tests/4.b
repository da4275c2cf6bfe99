main() {
    answers();
    tests();
}

say(n, x)
    if(n == 4)
        test("-7 / 2: your answer", x, -7 / 2);
