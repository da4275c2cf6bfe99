main() {
    auto n, x;
    n = 3;
    while(n) {
        if(n == 1)
            goto out;
        n--;
    }
    printn(x, 10);
out:
    ;
}
