/* test.b: tests that are right, and where the input isn't empty some that are wrong. */
v[7] 1, 2, 3, 4, 5, 6, 7, 8;

main() {
    rights();
    if(getchar() != '*e')
        wrongs();
    tests();
}

rights() {
    extrn v;

    printn(test("one", 1, 1), 10);
    printn(test("low", 1 << 15, 32768), 10);
    printn(teststr("ab", "ab", "ab"), 10);
    printn(teststr("none", "", ""), 10);
    printn(testvec("v", v, 2, 1, 2), 10);
    printn(testvec("v", v, 0, 5), 10);
    printn(testvec("v", v, 8, 1, 2, 3, 4, 5, 6, 7, 8), 10);
    putchar('*n');
}

wrongs() {
    extrn v;

    printn(test("two", 3, 2), 10);
    putchar('*n');
    test("low", 1 << 15, -1);
    printn(teststr("s", "ab", "abc"), 10);
    putchar('*n');
    teststr("t", "abc", "ab");
    teststr("u", "", "x");
    teststr("z", 0, "x");
    teststr("d", "0123456789012345678901234567890123456789", "01234567890123456789012345678901234567890");
    printn(testvec("v", v, 3, 1, 2, 4), 10);
    putchar('*n');
    testvec("w", v + 2, 1, 1);
    testvec("x", v, 8, 1, 2, 3, 4, 5, 6, 7, 9);
}
