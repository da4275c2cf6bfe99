main() {
    switch 2 {
        case 1: putchar('1');
        case 2: putchar('2');
        case 3: putchar('3');
    }
    switch 9 {
        case 1: putchar('1');
    }
}
