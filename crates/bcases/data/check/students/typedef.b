typedef int word;

main() putchar('a');
