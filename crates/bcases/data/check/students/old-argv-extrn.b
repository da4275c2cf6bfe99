main() {
    extrn argv;
    printn(argv[0], 10);
}
