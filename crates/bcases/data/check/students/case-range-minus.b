main() {
    auto c;
    c = getchar();
    switch c {
        case 1 - 5: putchar('L');
    }
}
