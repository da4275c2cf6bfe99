f(x) {
    if(x > 3)
        return x + 1;
    return(x);
}
main() {
    putchar(f(4) + '0');
}
