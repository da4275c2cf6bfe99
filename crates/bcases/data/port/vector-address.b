int v[2] = { 5, 6 };
int *p = v;
main() { printn(p[1], 10); }
