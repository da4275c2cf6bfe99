main() {
    putchar(char("ab" 70000));
}
