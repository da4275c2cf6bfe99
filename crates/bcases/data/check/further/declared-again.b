main() {
    x = 1;
}

f() {
    putchar('a');
}

f() {
    putchar('b');
}

main() {
    f();
}
