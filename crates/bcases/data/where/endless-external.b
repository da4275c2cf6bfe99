/* a function asks for input, and n and i stay */
n 5;
v[2];
main() {
    extrn n, v;
    auto i, w 1;
    i = 0;
    while(n > i + v[0] + w[1])
        f(i);
}
f(a) {
    a = getchar();
    return(a);
}
