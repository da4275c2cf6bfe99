f(n)
    printn(1 / n, 10);
