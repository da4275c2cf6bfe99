total 7;
main() {
    printn(total, 10);
}
