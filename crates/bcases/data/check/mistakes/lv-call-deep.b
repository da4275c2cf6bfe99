main() {
    f(((1)))++;
}
f(a) {
    return(a);
}
