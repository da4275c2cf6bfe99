main() { auto i[2]; printf("%d\n", 2); }
