one sq;
main() printn(one(7), 10);
sq(x) return x;
