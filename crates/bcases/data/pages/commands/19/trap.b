main() f(7);
f(a) printn(a / 0, 10);
