main() {
    hello();
}
bye();
hello() putchar('h');
bye() putchar('b');
