#define DEBUG
main() putchar('a');
