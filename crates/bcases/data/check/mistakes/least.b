/* A recursion that ends at 0 has no argument that may be left out, and neither has a loop. */
main() {
    printn(power(2), 10);
    down(3);
    only();
    both(1);
}
power(b, e) {
    if(e == 0)
        return(1);
    return(b * power(b, e - 1));
}
down(a, n) {
    while(n) {
        putchar(a);
        n--;
    }
}
only(n) if(!n) putchar('x');
both(a, b, c) {
    if(c)
        printn(a + b, 10);
}
