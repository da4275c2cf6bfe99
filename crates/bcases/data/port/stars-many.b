main() x("*** a\n");
x(s) return(char(s, 0));
