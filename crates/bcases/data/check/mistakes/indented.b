/* What stands like a body and isn't one. */
main() {
    auto i, n;
    i = n = 0;
    while(i < 3)
        putchar('a');
        i++;
    if(i == 3)
        putchar('b');
        putchar('c');
    if(n)
        putchar('d');
    else
        putchar('e');
        n = 1;
    if(n) {
        while(n < 5)
            n++;
            putchar('f');
    }
    while(i > 0)
        if(n == i)
            i = 0;
        i--;
    if(n) putchar('g');
    else
        if(i)
            putchar('h');
            if(n) putchar('i');
    while(n < 6)
        n++;
    putchar('*n');
    if(n)
        six:
        n = 6;
    if(n == 6)
        putchar('j');
  label:
    while(i < 9) i++;
        putchar('k');
    switch n {
    case 1:
        putchar('l');
        if(i)
            putchar('m');
    case 2:
        putchar('n');
    }
    if(i) {
        putchar('o');
    }
        putchar('p');
}
