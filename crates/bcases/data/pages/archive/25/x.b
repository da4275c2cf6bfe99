main() printn(9 + 010, 10);
