kind(c) {
    switch c {
        case ' ': case '*t': case '*n': return('b');
        case '0': case '1': return('d');
    }
    return('o');
}

main() {
    putchar(kind('*t'));
    putchar(kind('1'));
    putchar(kind('x'));
}
