main() {
    auto n;
again:
    n = 10;
    printn(n, 10);
    n--;
    if(n > 0)
        goto again;
    n = 10;
right:
    printn(n, 10);
    n--;
    if(n > 0)
        goto right;
asked:
    n = 0;
    printn(n, 10);
    n = getchar();
    if(n == ' ')
        goto asked;
}
