main() {
    auto c, n;
    n = 0;
    c = getchar();
    while(c != '*n') {
        n++;
        c = getchar();
    }
    c = getchar();
    while(c != '*n' & c != '*e')
        c = getchar();
    c = getchar();
    while(c != ' ') {
        if(c == '*e')
            return;
        c = getchar();
    }
    printn(n, 10);
}
