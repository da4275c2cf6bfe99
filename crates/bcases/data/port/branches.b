#ifdef A
n 1; /* one
#endif */
#else
n 2;
#endif
main() { extrn n; printn(n, 10); }
