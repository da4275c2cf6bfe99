EQ = 1 && 2;
main() { auto a; a =*= 2; }
