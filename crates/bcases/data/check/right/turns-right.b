stack[9];
top 0;
push(c) {
    extrn stack, top;
    stack[top++] = c;
}
pop() {
    extrn stack, top;
    return(stack[--top]);
}
gcd(a, b) {
    if(b == 0)
        return(a);
    return(gcd(b, a % b));
}
upto(n, last) {
    if(n <= last) {
        printn(n, 10);
        upto(n + 1, last);
    }
}
find(v, n, x) {
    auto i, found;
    found = 0;
    i = 0;
    while(i < n) {
        if(v[i] == x)
            found = 1;
        i++;
    }
    return(found);
}
main() {
    auto i, f, d 3;
    i = 10;
    while(i != 1) {
        push(i);
        i =- 3;
    }
    i = 0;
    while(i < 3) {
        d[i] = pop();
        i++;
    }
    putchar('*n');
    i = 0;
    while(i < 3) {
        printn(d[i], 10);
        i++;
    }
    f = i = 1;
    while(i < 5) {
        i++;
        f =* i;
    }
    i = 0;
    while(i < 4) {
        if(i > 0)
            printn(12 % i, 10);
        i++;
    }
    upto(1, gcd(12, 8));
    printn(f + find(d, 3, 4), 10);
    while(getchar() != '*n')
        f++;
    printn(f, 10);
}
