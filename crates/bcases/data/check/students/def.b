def square(x) {
    return(x * x);
}
main() {
    printn(square(4), 10);
}
