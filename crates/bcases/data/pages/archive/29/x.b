main() { auto lines; lines = 7; printn(lines, 10); }
