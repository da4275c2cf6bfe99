main() {
    auto s;
    s = "a\n";
    s = "\t";
    s = "\r";
    s = "\0";
    s = "\\";
    s = "\q";
    s = "\";
    s = "a\";
    putchar('\n');
    putchar('\0');
    putchar('\');
    printn(s[0], 10);
}
