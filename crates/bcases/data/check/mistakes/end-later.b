f() {
    return(1);
}
main() {
    if(char("ab", 0) == 0)
        putchar('n');
    f();
}
