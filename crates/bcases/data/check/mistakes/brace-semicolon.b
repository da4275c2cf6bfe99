main() {
    putchar('a');
};
