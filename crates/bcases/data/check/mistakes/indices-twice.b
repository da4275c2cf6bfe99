main() {
    auto grid 9, rows 2, a 3, i;
    i = 0;
    grid[i][2] = 1;
    printn(grid[1][2], 10);
    rows[i] = a;
    rows[0][1] = 5;
    printn(rows[0][1], 10);
}
