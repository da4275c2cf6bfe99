main() {
    x = "abc;
}

f(a) {
    putchar('*n);
}

g() {
    putchar("a);
    putchar('b');
}

h() {
    y = 2;
}
