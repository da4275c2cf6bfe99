main() {
    printn(argv[1], 10);
}
