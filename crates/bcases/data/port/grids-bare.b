int rows[2][3];
show(rows) { printn(rows[1][2], 10); }
main() { rows[1][2] = 5; show(rows); }
