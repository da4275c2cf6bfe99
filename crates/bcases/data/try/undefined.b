square(n)
    return(n * n);
main() {
    printn(sqare(5), 10);
}
