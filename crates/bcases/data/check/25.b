main() { x = 5; }
