main() printn(3.14, 10);
