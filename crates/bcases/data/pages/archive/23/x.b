n 65531; main() { extrn n; printn(n, 10); }
