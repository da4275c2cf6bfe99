main() { auto v[9]; copy(v, "abc"); printn(length(v), 10); }
length(s) { auto i; i = 0; while(char(s, i) != '*e') i++; return(i); }
