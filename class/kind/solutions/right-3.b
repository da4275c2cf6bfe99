/* b: --with print --with strings */
/* Of what kind the first character of the input is. */
main() {
    auto c;

    c = getchar();
    printf("%s*n", isalpha(c) ? "letter" : isdigit(c) ? "digit" : "other");
}
