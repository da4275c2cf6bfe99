main() {
    auto i, j;
    for(i = 0, j = f(1, 9); i < j; i++, j -= 2)
        printn(i, 10);
}
f(a, b) return(a + b);
