main() {
    auto c;
    c = getchar();
    switch c {
        case 'A' : 'Z': putchar('L');
    }
}
