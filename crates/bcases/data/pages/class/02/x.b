main() {
    i = 1;
    printn(i, 10);
}
