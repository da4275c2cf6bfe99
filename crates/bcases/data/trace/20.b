n 5;
main() { extrn n; n++; }
