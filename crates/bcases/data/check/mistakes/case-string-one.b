main() {
    auto c;
    c = getchar();
    switch c {
    case "a": putchar('a');
    }
}
