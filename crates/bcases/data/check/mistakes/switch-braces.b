main() {
    auto x;
    x = 1;
    switch x
        case 1: putchar('a');
}
