f(x) { if(x == 'a') f("a"); putchar('a'); }
