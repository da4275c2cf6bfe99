main() f(-1);
f(a) printn(a / 0, 10);
