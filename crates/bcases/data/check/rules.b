main() {
    auto i;

    i = 0;
again:
    i = i + 1;
    if(i < 3)
        goto again;
    while(i > 0)
        i = i - 1;
}
