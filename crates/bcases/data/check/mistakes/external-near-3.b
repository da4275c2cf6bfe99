counter 5;
main() {
    printn(countr, 10);
}
