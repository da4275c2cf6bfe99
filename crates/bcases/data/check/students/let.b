main() {
    let count = 0;
    printn(count, 10);
}
