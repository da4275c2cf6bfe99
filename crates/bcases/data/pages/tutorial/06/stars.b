/* A triangle of stars, and how many they are. */
main() {
    auto row, i, all;

    row = 1;
    all = 0;
    while(row <= 4) {
        i = 0;
        while(i < row) {
            putchar('**');
            i++;
            all++;
        }
        putchar('*n');
        row++;
    }
    printn(all, 10);
    putchar('*n');
}
