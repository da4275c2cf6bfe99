n 5;
main() {
    n = 6;
}
