main() f(11);
f(base)
    printn(5, base);
