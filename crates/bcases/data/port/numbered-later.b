main() {
20     putchar('a');
30 }
