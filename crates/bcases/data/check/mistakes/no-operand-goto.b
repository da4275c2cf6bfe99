main() {
    auto n;
    n = 3;
again:
    n--;
    if(n)
        goto ;
}
