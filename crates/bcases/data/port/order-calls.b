main() printn(number() - number(), 10);
number() return 1;
