main() {
    auto s; /* "s" */
    s = "// no comment"
    putchar(char(s, 0)); /* ; */
}
