main() {
    push(1);
    push(2);
    push(3);
    test("the first pop", pop(), 3);
    push(4);
    test("the next pop", pop(), 4);
    test("and the next", pop(), 2);
    test("and the last", pop(), 1);
    tests();
}
