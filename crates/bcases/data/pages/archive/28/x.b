main() { auto linecount; linecount = 7; printn(linecount, 10); }
