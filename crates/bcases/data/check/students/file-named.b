%print

main() printf("hi*n");
