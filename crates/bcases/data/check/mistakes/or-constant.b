/* Each side of | needs a comparison of its own. */
main() {
    auto c, v 3, n;
    c = getchar();
    v[0] = c;
    n = 0;
    if(c == 'a' | 'e')
        n = 1;
    if(c == 'a' | c == 'b' | 'c')
        n = 2;
    while(v[0] == 1 | 2)
        v[0] = getchar();
    n = (c != 'x' | 'y') ? 1 : 2;
    printn(c < 3 | 4, 10);
here: if(c >= v[n] | 7) n++;
    if(c == 'a' | c == 'e')
        n = 3;
    n = c | 16;
    if((c | 32) == 'a')
        n = 4;
    printn(n, 10);
}
