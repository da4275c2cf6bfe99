grid[8];
main() {
    extrn grid;
    auto i, k;
    i = k = 1;
    grid[i, k] = 7;
}
