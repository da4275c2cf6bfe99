main() {
    auto c;
    c = getchar();
    switch c {
    case "add": putchar('a');
    }
}
