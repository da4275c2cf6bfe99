/* Mistakes in programs that call exit. */

main() {
    auto table 9, k;
    k = 0;
    while(1) {
        if(k == 12)
            exit();
        table[k] = k * k; /* told */
        k = k + 1;
    }
    printn(table[3], 10);
}

run2() {
    auto c, n;
    n = 0;
next: c = getchar();
    if(!c) { printn(n, 10); exit(); } /* told */
    n++;
    goto next;
}

run3() {
    auto n; n = getchar();
    if(n == 'x') { putchar('x'); exit(); return; }
    else { return;
        putchar('n'); /* told */
    }
}
