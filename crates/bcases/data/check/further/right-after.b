main() {
    putchar('a')
}

f(x) {
    return(x + 1);
}

n 5;

g() {
    extrn n;
    f(n);
}
