/* Layouts of other kinds. */
first(n)
{
    if(n > 3)
        putchar('a'); else
        putchar('b');
    while(n > 0)
    {
        n--;
    }
    putchar('*n');
}
second(n) {
    if(n) putchar('c'); putchar('d');
    while(n > 0) n--;
        /* a remark */
    if(n == 0)
        putchar('e');

    putchar('f');
    return(n);
}
third(n) {
    if(n == 1) { putchar('1');
        putchar('2'); }
    switch n {
    case 1:
        putchar('x');
    case 2:
        if(n)
            n = 0;
        putchar('y');
    }
    if(n > 2 &
       n < 7)
        n++;
again:
        n--;
    if(n > 5) goto again;
}
main() {
    first(2); second(1); third(2);
}
