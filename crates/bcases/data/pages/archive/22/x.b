n -5; main() { extrn n; printn(n, 10); }
