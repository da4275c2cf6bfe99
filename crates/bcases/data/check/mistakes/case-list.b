main() {
    switch 1 {
    case 1, 2: putchar('a');
    }
}
