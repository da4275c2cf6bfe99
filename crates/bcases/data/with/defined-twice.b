say(c) putchar('n');
main() say('x');
