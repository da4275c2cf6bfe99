/* The largest of three numbers, between two lines. */
main() {
    line(5, '-');
    printn(larger(7, larger(3, 9)), 10);
    putchar('*n');
    line(5, '=');
}

line(n, c) {
    while(n > 0) {
        putchar(c);
        n--;
    }
    putchar('*n');
}

larger(a, b) {
    if(a > b)
        return(a);
    return(b);
}
