main() auto v 1, w 1; ;
