main() {
    auto i, sum;

    i = sum = 0;
    while(i < 250) {
        push(i);
        push(i + 1);
        sum =+ pop();
        sum =- pop();
        i++;
    }
    test("what 250 pairs of pops give", sum, 250);
    test("depth at the end", depth(), 0);
    tests();
}
