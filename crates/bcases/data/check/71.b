concats(s) s;
main() concat("ab", "c");
