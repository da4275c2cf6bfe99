main() {
    test("push", push(7), 1);
    test("depth after a push", depth(), 1);
    test("pop", pop(), 7);
    test("depth after a pop", depth(), 0);
    tests();
}
