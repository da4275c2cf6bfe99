grid[3][3];

main() {
    extrn grid;
    grid[0] = 1;
}
