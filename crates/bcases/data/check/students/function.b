main() {
    printn(twice(4), 10);
}
function twice(x) {
    return(2 * x);
}
