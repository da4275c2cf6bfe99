tab[2] "pear", "apple", "fig";

main() {
    extrn tab;
    auto i, t;
    i = 0;
    while(i < 2) {
        if(*tab[i] > *tab[i + 1]) {
            t = tab[i];
            tab[i] = tab[i + 1];
            tab[i + 1] = t;
        }
        i = i + 1;
    }
    show(tab);
}

show(v) {
    if(v[0][0] == 'a')
        putchar('a');
    putchar(char(v[0], 0));
}
