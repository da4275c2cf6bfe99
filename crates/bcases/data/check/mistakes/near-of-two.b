main() abc(1);
ac(n) printn(n, 10);
