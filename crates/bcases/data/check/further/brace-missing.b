main() {
    while(1) {
        putchar('a');
}

f() {
    x = 1;
}

g() {
    y = 2;
}
