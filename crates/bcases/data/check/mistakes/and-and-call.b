main() {
    auto i;
    i = 3;
    if(i > 2 && f(i))
        putchar('y');
}
f(n) return(n > 1);
