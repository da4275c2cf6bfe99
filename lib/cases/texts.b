/* strings.b, print.b: a line of each function of strings. */
main() {
    lengths();
    putchar('*n');
    copies();
    putchar('*n');
    joins();
    putchar('*n');
    compares();
    putchar('*n');
    indexes();
    putchar('*n');
}

lengths()
    printf("%d %d %d %d %d", length(""), length("a"), length("ab"), length("abc"), length("a*0b"));

copies() {
    auto s 2;

    s[1] = s[2] = -1;
    printf("%s ", copy(s, "ab"));
    printf("%o %o ", s[1], s[2]);
    printf("%s ", copy(s, "abc"));
    printf("%o %o ", s[1], s[2]);
    printf("%s ", copy(s, s));
    printf("<%s> ", copy(s, ""));
    printf("%d", copy(s, "x") == s);
}

joins() {
    auto s 3;

    s[3] = 1972;
    printf("<%s> ", concat(s));
    printf("<%s> ", concat(s, "", ""));
    printf("<%s> ", concat(s, "ab", "", "c"));
    printf("<%s> ", concat(s, s, "d"));
    printf("<%s> ", concat(s, s, "e"));
    printf("<%s> ", concat(s, "f"));
    printf("<%s> ", concat(s, "1", "2", "3", "4", "5"));
    printf("%d %d ", s[3], concat(s, "g") == s);
    many();
}

many() {
    auto s 5;

    printf("<%s>", concat(s, "1", "2", "3", "4", "5", "6", "7", "8", "9", "a", "b"));
}

compares() {
    auto s 1;

    printf("%d %d %d ", compare("", ""), compare("ab", "ab"), compare("a*0b", "a*0b"));
    printf("%d %d ", compare("", "a"), compare("a", ""));
    printf("%d %d ", compare("ab", "abc"), compare("abc", "ab"));
    printf("%d %d ", compare("a", "a*0"), compare("a*0", "a"));
    printf("%d %d ", compare("abc", "abd"), compare("abd", "abc"));
    printf("%d %d ", compare("b", "ab"), compare("ab", "b"));
    lchar(s, 0, 195);
    lchar(s, 1, '*e');
    printf("%d %d", compare("z", s), compare(s, "z"));
}

indexes() {
    printf("%d %d %d ", index("hello", "he"), index("hello", "l"), index("hello", "lo"));
    printf("%d %d ", index("hello", "hello"), index("hello", "hello!"));
    printf("%d %d %d ", index("hello", "x"), index("hello", "le"), index("", "a"));
    printf("%d %d ", index("hello", ""), index("", ""));
    printf("%d %d", index("aab", "ab"), index("aaab", "aab"));
}
