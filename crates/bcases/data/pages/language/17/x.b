main() {
    switch 5 {
        case 1: putchar('1');
        default: putchar('d');
    }
    putchar('e');
}
