v[3] 1, 2;
counter 5;
main() {
    printn(countr, 10);
}
