say(c) putchar(c);
