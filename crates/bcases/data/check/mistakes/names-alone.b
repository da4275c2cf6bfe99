newline() {
    putchar('*n');
}

main() {
    newline;
    newline;
}
