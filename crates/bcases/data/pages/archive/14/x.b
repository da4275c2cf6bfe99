main() switch 2 case 2: putchar('2');
