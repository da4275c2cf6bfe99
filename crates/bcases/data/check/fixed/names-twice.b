main() {
    auto count;

    count = 0;
    count = 1;
    cuont = 2;
    cuont++;
}
