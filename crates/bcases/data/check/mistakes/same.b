n 3;
fact(n) {
    if(n == 0)
        return(1);
    return(n * fact(n));
}
skip(c) {
    if(getchar() == c)
        skip(c);
}
down(n) {
    if(n == 0)
        return;
    n--;
    down(n);
}
more() {
    extrn n;
    if(n--)
        more();
}
main() {
    printn(fact(5), 10);
    skip('a');
    down(3);
    more();
}
