main() {
    switch 5 {
    case 1: putchar('a'); break;
    default: putchar('b');
    }
}
