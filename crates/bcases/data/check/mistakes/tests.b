square(n)
    return(n * n);
main() {
    test("square", square(3), 9);
    tests();
}
