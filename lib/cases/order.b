/* vectors.b, strings.b, print.b: lines of sort, of sortby, and of getvec. */
words[5] "pear", "fig", "apple", "", "figs", "fig";
numbers[3] 1, 3, 2, 3;
room[9];

main() {
    sorts();
    putchar('*n');
    orders();
    putchar('*n');
    vectors();
    putchar('*n');
}

sorts() {
    auto v 4;

    show(sort(set(v, 3, 1, 2, 0, 5), 0));
    show(sort(set(v, 3, 1, 2, 0, 5), 1));
    show(sort(set(v, 3, 1, 2, 0, 5), 2));
    show(sort(set(v, 3, 1, 2, 0, 5), 5));
    show(sort(set(v, 1, 2, 3, 4, 5), 5));
    show(sort(set(v, 5, 4, 3, 2, 1), 5));
    show(sort(set(v, 2, 1, 2, 1, 2), 5));
    show(sort(set(v, 0, 32767, -1, 1 << 15, 1), 5));
    show(sort(set(v, 3, 1, 2, 0, 5), -1));
    set(v, 9, 8, 7, 6, 5);
    sort(v + 1, 3);
    show(v);
    many();
}

set(v, a, b, c, d, e) {
    v[0] = a;
    v[1] = b;
    v[2] = c;
    v[3] = d;
    v[4] = e;
    return(v);
}

show(v)
    printf("%d %d %d %d %d*n", v[0], v[1], v[2], v[3], v[4]);

/* The numbers 0 to 99, 37 apart. */
many() {
    auto v 99, i;

    i = 0;
    while(i < 100) {
        v[i] = i * 37 % 100;
        i++;
    }
    sort(v, 100);
    while(--i >= 0 ? v[i] == i : 0)
        ;
    printf("%d", i);
}

orders() {
    extrn words, numbers, compare, falling;
    auto i;

    sortby(words, 6, compare);
    i = 0;
    while(i < 6)
        printf("<%s>", words[i++]);
    sortby(numbers, 4, falling);
    i = 0;
    while(i < 4)
        printf(" %d", numbers[i++]);
}

falling(a, b)
    return(b - a);

vectors() {
    extrn room;
    auto a, b, c;

    printf("%d ", getvec(0));
    givevec(room, 9);
    printf("%d %d %d ", getvec(10), getvec(-1), getvec(32767));
    printf("%d ", getvec(9) == room);
    printf("%d*n", getvec(0));
    givevec(room, 9);
    a = getvec(0);
    b = getvec(3);
    c = getvec(4);
    printf("%d %d %d %d ", a == room, b == room + 1, c == room + 5, getvec(0));
    rlsevec(b, 3);
    printf("%d ", getvec(0));
    rlsevec(c, 4);
    rlsevec(0, 4);
    printf("%d %d ", getvec(5), getvec(4) == c);
    rlsevec(c, 4);
    rlsevec(b, 3);
    rlsevec(a, 0);
    printf("%d", getvec(9) == room);
}
