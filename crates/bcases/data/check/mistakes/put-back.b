turn(s, n) {
    auto i, j, c;
    i = 0;
    j = n;
    while(i < j) {
        lchar(s, i, char(s, j));
        lchar(s, j, char(s, i));
        i++;
        j--;
    }
    c = char(s, 0);
    lchar(s, 0, char(s, 1));
    lchar(s, 1, c);
    lchar(s, 2, char(s, 3));
    lchar(s, 3, char(s, 4));
}
main() turn("abcdefgh", 7);
