n 5;
main() {
    auto n 1, putchar, a, b;
    n[0] = 1;
    putchar = n[0];
    printn(n[0] + putchar, 10);
    a = 1;
}
f(exit) {
    auto char 3;
    char[0] = exit;
    return(char[0]);
}
