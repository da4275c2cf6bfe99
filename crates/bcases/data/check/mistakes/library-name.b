main() {
    printn(getchar, 10);
}
