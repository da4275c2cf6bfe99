main() {
    test("depth at first", depth(), 0);
    test("pop of none", pop(), 0);
    test("pop of none", pop(), 0);
    test("depth after them", depth(), 0);
    test("push", push(5), 1);
    test("pop", pop(), 5);
    tests();
}
