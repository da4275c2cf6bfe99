main() {
    auto i;

    i = 0;
    while(i < 10) {
        printn(i, 10);
        i = i + 1;
    }
    if((i > 3))
        i = (i);
    return(i);
}
