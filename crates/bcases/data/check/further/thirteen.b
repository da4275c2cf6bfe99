/* An old program. */
main() {
    total = 5;
}

first(x) {
    x += 1;
    return(x);
}

second(x) {
    auto v[10];
    v[0] = x;
}

third(x) {
    for(x = 0; x < 5; x++)
        putchar('*n');
}

fourth(x) {
    if(x < 1 || x > 5)
        x = 0;
}

fifth(x) {
    printn(0x10, 10);
}

sixth() {
    putchar('abc');
}

seventh(x) {
    return(x ^ 1);
}

/* eighth() {
   is a remark */

eighth(x) {
    break out;
}

ninth(x) {
    x = 5
    return(x);
}

tenth(char x) {
    return(x);
}

eleventh(x) {
    return(x);
}

twelfth(x) {
    goto done;
}

last(x) {
    while x < 5
        x++;
}
