main() { auto v[10]; v[10] = 5; printn(v[10], 10); }
