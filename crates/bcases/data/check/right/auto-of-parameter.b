n 5;
f(n) return(n);
main() {
    printn(f(1), 10);
}
