say(c) putchar(c);
/* goes on
