main() {
    auto c;
    switch c = getchar() {
        case 'A' :: 'Z': putchar('L');
    }
}
