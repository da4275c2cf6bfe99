main() { auto c; c = 'k'; switch c { case 'a' :: 'z': putchar('l'); } }
