main() f(0);
