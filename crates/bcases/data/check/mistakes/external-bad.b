main() {
    size = 5;
}
f(a) {
    return(a ^ 1);
}
size 5;
