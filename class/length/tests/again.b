main() {
    test("length of hello", length("hello"), 5);
    test("length of hi", length("hi"), 2);
    test("length of hello, once more", length("hello"), 5);
    tests();
}
