main() {
    auto count;
    count = 0;
    cuont++;
    printn(count, 10);
}
