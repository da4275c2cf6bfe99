main() {
    auto i;
    i = 0;
    while(i < 3 || more(i))
        i++;
}
more(n) return(n < 5);
