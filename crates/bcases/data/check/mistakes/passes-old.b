/* A function gives itself the word that it had. */
main() {
    down(3);
    fact(3);
    both(1, 2);
    deep(1);
    two(1);
    move(1, 3);
    once(2);
}
down(n) {
    if(n) {
        printn(n, 10);
        down(n--);
    }
}
fact(n) return(n < 2 ? 1 : n * fact(n--));
both(a, b) if(a) both(a--, b);
deep(n) { while(n < 9) n = deep(n++); return(n); }
two(n) {
    if(n > 1)
        return(1);
    return(two(
        1) + two(n++));
}
move(n, a) if(n) { if(a) move(a, n--); }
once(n) {
    auto m;
    m = n;
    if(n > 0) {
        once(--n);
        once(n - 1);
        once(m--);
        other(n--);
    }
}
other(n) return(n);
