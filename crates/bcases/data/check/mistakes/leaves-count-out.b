main() {
    auto n;
    n = 1;
    while(n <= 15) {
        if(n % 3 == 0)
            goto next;
        if(n % 5 == 0)
            goto next;
        printn(n, 10);
        n++;
    next: ;
    }
    n = 1;
    while(n <= 15) {
        if(n % 3 == 0)
            goto other;
        printn(n, 10);
    other:
        n++;
    }
}
