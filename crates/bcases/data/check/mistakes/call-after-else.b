main() {
    auto n;
    n = getchar();
    if(n == 'a')
        goto other;
    else other: putchar 'A';
}
