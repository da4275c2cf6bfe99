main() {
    switch 1 {
    case -1: putchar('a');
    }
}
