main() { int x, y; x=-1; y += x; return x; }
