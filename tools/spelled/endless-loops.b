/* While(1) without a way out. */
first() {
    auto i;
    i = 0;
    while(1) { /* told */
        i++;
        putchar('a');
    }
}
second(v) {
    auto i;
    i = 0;
    while(1) /* told */
        v[i++] = 0;
}
third(n) {
    if(n > 3)
        while('x') { /* told */
            if(n == 5)
                n = 0;
            n++;
        }
    return(n);
}
fourth(n) {
top: while(2 > 1) { /* missed */
        while(n > 3)
            n--;
        n =+ 5;
    }
    goto top; /* told */
}
fifth(n) {
    while(!0) { /* missed */
in:     n++;
        if(n < 10)
            goto in;
    }
}
sixth(n) { /* told */
    while((1)) /* told */
    {
        switch n { case 1: n = 2; case 2: n = 1; }
    }
}
main() {
    auto v 3;
    first(); second(v); third(1); fourth(1); fifth(1); sixth(1);
}
