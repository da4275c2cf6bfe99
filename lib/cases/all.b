/* print.b, input.b, strings.b, numbers.b, vectors.b, test.b: all of them in one program: the lines of the input as
   numbers, the smallest first. */
words[20];

main() {
    extrn words;
    auto line 5, v, n, i;

    givevec(words, 20);
    v = getvec(9);
    n = 0;
    while(n < 10 ? getline(line, 11) : 0)
        if(length(line) > 0 & compare(line, "none") != 0)
            v[n++] = number(line);
    sort(v, n);
    i = 0;
    while(i < n)
        printf("%d ", v[i++]);
    printf("%d %d", min(v[0], 0), max(n, 3));
}
