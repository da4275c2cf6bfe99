/* Functions as initial values: an element is the address of a function's word, which is called through it. */
tab add, times, less;
v[2] less, add, v;

add(a, b) return(a + b);
times(a, b) return(a * b);
less(a, b) return(a - b);

main() {
    extrn tab, v, add;
    auto i;

    i = 0;
    while(i < 3) {
        printn((*(&tab)[i])(7, 3), 10);
        putchar(' ');
        i++;
    }
    printn((*v[0])(7, 3), 10);
    putchar(' ');
    printn((*v[1])(7, 3), 10);
    putchar(' ');
    /* tab at 7 to 9, v at 10 with its words from 11 on, add at 14, and so on */
    printn(tab, 10);
    putchar(' ');
    printn(v[0], 10);
    putchar(' ');
    printn(v[2], 10);
    putchar(' ');
    printn(tab == &add, 10);
    putchar(' ');
    printn(*tab == add, 10);
    putchar(' ');
    printn(add, 10);
    putchar('*n');
}
