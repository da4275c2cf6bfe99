main() printn((6 | 3) - (6 & 3), 10);
