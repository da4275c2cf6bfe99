/* Each byte stored in either half, whatever is above it: the other half and the words beside it stay. */
main() {
    auto i, v 2, wrong;

    i = wrong = 0;
    while(i < 256) {
        v[0] = v[2] = 4369;
        v[1] = 43981;
        if(lchar(v, 2, i) != i) wrong++;
        if(v[1] != 43776 + i) wrong++;
        if(lchar(v, 3, 65280 + i) != 65280 + i) wrong++;
        if(v[1] != i * 256 + i) wrong++;
        if(v[0] != 4369 | v[2] != 4369) wrong++;
        i++;
    }
    printn(wrong, 10);
    putchar(' ');
    /* the last word of the store, and the first one after it */
    lchar(65535, 0, 'a');
    lchar(65535, 1, 'b');
    lchar(65535, 3, 'c');
    printn(*65535, 10);
    putchar(' ');
    printn(*0, 10);
}
