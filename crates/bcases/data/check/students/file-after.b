main() printf("hi*n");
%print
