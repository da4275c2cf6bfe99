/* say(c): writes c */
say(c) putchar(c);
