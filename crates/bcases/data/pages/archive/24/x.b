main() printn(09 + 010, 10);
