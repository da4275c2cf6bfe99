kind(c) {
    switch c {
        default: putchar('o');
        case ' ': putchar('b'); break;
        case '0': putchar('d');
    }
    putchar('.');
}

main() {
    kind('x');
    kind(' ');
    kind('0');
}
