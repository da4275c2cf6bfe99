sum(a, b, c) {
    if(nargs() == 2) return(a + b);
    return(a + b + c);
}

main() printn(sum(1, 2, 3), 10);
