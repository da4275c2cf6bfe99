main() {
    auto n;
    n = 3;
    while(n--)
        n == 2;
    while(n++)
        n;
    if(n)
        n + 1;
    else
        n;
}
