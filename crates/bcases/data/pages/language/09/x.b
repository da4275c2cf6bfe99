main() {
    auto i;
    i = 0;
again:
    printn(i, 10);
    i++;
    if(i < 3) goto again;
}
