again:
main() {
    putchar('a');
    goto again;
}
