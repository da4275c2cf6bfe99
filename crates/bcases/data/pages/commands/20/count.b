main() {
    auto i;
    i = 0;
    while(i < 3) {
        f(i);
        i++;
    }
}
f(a) {
    if(a == 1)
        return(a);
}
