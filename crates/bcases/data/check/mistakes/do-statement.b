main() {
    auto i;
    i = 0;
    do i++; while(i < 3);
}
