sign(n, wanted) {
    if(n > 0)
        if(wanted)
            putchar('p');
    else
        putchar('n');
    if(n)
        while(wanted--)
            if(n > 2) putchar('a');
    else putchar('b');
    if(n > 0)
        if(wanted)
            putchar('p');
        else
            putchar('q');
    if(n > 0) {
        if(wanted)
            putchar('p');
    }
    else
        putchar('n');
    if(n == 1)
        putchar('1');
    else if(n == 2)
        putchar('2');
    else
        putchar('3');
}
main() sign(5, 1);
