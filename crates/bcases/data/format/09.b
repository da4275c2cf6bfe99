main() { if x y; }
