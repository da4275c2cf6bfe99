let total;
main() {
    printn(1, 10);
}
