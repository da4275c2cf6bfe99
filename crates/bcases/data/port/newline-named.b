manifest NL = '\n';
main() putchar(NL);
