main {
    putchar('a');
}
