/* after it */
say(x) putchar(x);
n 'n';
