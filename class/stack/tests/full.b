main() {
    auto i;

    i = 0;
    while(i < 100)
        push(i++);
    test("depth of a full one", depth(), 100);
    test("push to a full one", push(5), 0);
    test("depth after it", depth(), 100);
    test("pop", pop(), 99);
    test("push after it", push(6), 1);
    test("pop of that", pop(), 6);
    tests();
}
