f(n) {
    if(n)
        f(n - 1);
}
