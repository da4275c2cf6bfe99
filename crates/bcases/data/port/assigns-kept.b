g(x) {
    if(x = 5)
        return x = 6;
    f(x);
}
