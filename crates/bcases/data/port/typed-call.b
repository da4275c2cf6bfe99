double(b) return(b + b);
main() { auto a, b; a = 1; b = 0; if(a && double(b)) printn(1, 10); else printn(2, 10); }
