hello() {
    star(5);
}

star(n) {
    while(n-- > 0)
        putchar('**');
}
