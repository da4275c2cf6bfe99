break;
main() {
    switch 1 {
        case 1:
            putchar('a');
        default:
            putchar('b');
    }
}
default 5;
