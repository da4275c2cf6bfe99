n 5;
main() {
    printn(n, 10);
}
