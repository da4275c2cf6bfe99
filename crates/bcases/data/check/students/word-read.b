main() {
    extrn table;
    printn(table[0], 10);
}
table 20;
