main() pritn("*n");
