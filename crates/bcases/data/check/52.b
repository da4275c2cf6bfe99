f() putchar("a");
