/* strings.b, print.b: what is known of a character, at both edges of each range, and of words that are none. */
main() {
    auto s, i, c;

    s = "/09:@AZ[`az{";
    i = 0;
    while((c = char(s, i++)) != '*e')
        printf("%c%c%d%d ", upper(c), lower(c), isdigit(c), isalpha(c));
    printf("%d %d %d %d", upper(-1), upper('ab'), lower('AB'), lower(0));
    printf(" %d %d %d", isdigit('a0'), isalpha(-1), isalpha(1 << 15));
}
