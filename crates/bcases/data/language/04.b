int x;
x 5;
main() { extrn int, x; printn(int == &x, 10); }
