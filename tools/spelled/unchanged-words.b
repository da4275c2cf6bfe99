/* A loop whose condition nothing changes. */
first(n) {
    auto i, sum;
    i = 0;
    sum = 0;
    while(i < n) /* told */
        sum =+ i;
    return(sum);
}
second(v, n) {
    auto i, j;
    i = 0;
    while(i < n) {
        j = 0;
        while(j < n) { /* told */
            v[j] = v[i];
            i++;
        }
    }
}
third(s) {
    auto i;
    i = 0;
    while(char(s, i) != '*e') { /* missed */
        putchar(char(s, i));
    }
}
fourth() {
    auto c;
    c = getchar();
    while(c != '*e') /* told */
        putchar(c);
}
fifth(n) {
    auto i;
    i = 1;
top: if(n) while(i <= n) { /* told */
        printn(i, 10);
        i + 1;
    }
    goto top; /* told */
}
sixth(a, b) {
    while(a != b) { /* told */
        if(a > b)
            f(a, b);
        else
            f(b, a);
    }
}
f(a, b) return(a - b);
main() {
    auto v 4;
    v[0] = v[1] = v[2] = v[3] = v[4] = 0;
    first(3); second(v, 3); third("abc"); fourth(); fifth(2); sixth(6, 4);
}
