main() {
    goto in;
    while(1) {
        putchar('a');
in:
        break;
    }
    putchar('k');
}
