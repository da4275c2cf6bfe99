marks[11] 5, 4, 3, 2, 1, 1, 2, 3, 4, 5, 4, 3;
grid[8];
main() {
    extrn marks, grid;
    auto row, col, sum;
    row = sum = 0;
    while(row < 3) {
        col = 0;
        while(col < 3) {
            sum = sum + marks[row][col];
            grid[row][col] = sum;
            col++;
        }
        row++;
    }
    printn(sum, 10);
}
