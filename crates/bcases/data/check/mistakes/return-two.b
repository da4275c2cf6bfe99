first(a, b) {
    return(a, b);
}
main() putchar(first('a', 'b'));
