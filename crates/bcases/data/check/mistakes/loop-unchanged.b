/* Nothing in the loop changes what its condition asks. */
main() {
    auto i, n, s;
    i = 0;
    n = 3;
    s = 0;
    while(i < 3)
        s = s + i;
    while(i < n) {
        s++;
        putchar('a');
    }
    if(n)
        while(n > 0) if(s) s--;
    while(!i) { putchar('x'); }
    while(1 < n) {
        while(s < 3)
            s++;
    }
    while((i + 1) * 2 != n & s >= 0) {
        printn(i, 10);
    }
    while(i < 3)
        i++;
    while(i < n) {
        if(getchar() == '*e')
            return;
    }
    while(n)
        n = n - 1;
    while(s > 0) {
        if(s == 4)
            goto out;
    }
out:
    steps();
}
word 3;
steps() {
    extrn word;
    auto i;
    i = 0;
    while(i < 3)
        step(&i);
    while(word)
        step(&word);
}
step(p) *p = *p + 1;
