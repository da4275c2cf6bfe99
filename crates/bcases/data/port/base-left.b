main() printn(5);
