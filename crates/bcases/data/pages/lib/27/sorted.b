lines[99];
words[1999];

main() {
    extrn lines, words, compare;
    auto line 40, n, i;

    givevec(words, 1999);
    n = 0;
    while(getline(line, 81)) {
        assert(n < 100, "more than 100 lines");
        lines[n] = getvec(length(line) / 2);
        assert(lines[n] != 0, "more than 2000 words");
        copy(lines[n++], line);
    }
    sortby(lines, n, compare);
    i = 0;
    while(i < n)
        printf("%s*n", lines[i++]);
}
