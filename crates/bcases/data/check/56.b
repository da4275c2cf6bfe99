f(x) x = 2; main() printn(f(1), 10);
