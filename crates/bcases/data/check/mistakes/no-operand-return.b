f(n) {
    if(n)
        return();
    putchar('n');
}
