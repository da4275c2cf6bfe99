/* Loops that something else changes or ends. */
first(n) {
    auto i;
    i = 0;
    while(i < n) {
        if(getchar() == '*e')
            return(0);
    }
    return(1);
}
second(n) {
    auto i;
    i = 0;
    while(i < n)
        step(&i);
    return(i);
}
third(v) {
    extrn flag;
    auto p;
    p = v;
    while(*p != 0)
        p[0]--;
    while(flag)
        clear();
    while(v[2] < 3)
        v[2]++;
    while(getchar() != '*n')
        ;
}
fourth(n) {
    while(n > 0) {
        if(n == 3)
            goto out;
        next();
    }
out: ;
}
flag 1;
next() exit(0);
clear() { extrn flag; flag = 0; }
step(p) *p =+ 1;
main() {
    auto v 3;
    v[0] = v[1] = v[2] = v[3] = 1;
    first(3); second(3); third(v); fourth(2);
}
