/* Each way calls the function again. */
main() {
    printn(fact(1) + sum(2) + half(3) + last(4), 10);
    down(3);
    loop();
    even(1);
    odd(1);
    turns(3);
    safe(3);
    until(1);
}
fact(n) return(n * fact(n - 1));
sum(n) {
    auto r;
    r = sum(n - 1);
    if(n == 0)
        return(0);
    return(n + r);
}
down(n) {
    printn(n, 10);
    down(n - 1);
}
half(n) {
    n = n / 2;
    return(1 + half(n));
}
loop() {
    {
        putchar('x');
        loop();
    }
}
last(n) {
    putchar(last(n));
    return(n);
}
even(n) return(n < 1 ? 1 : even(n - 2));
odd(n) {
    if(n < 1)
        return(0);
    return(odd(n - 2));
}
turns(n) {
    while(n > 0) {
        turns(n - 1);
        n--;
    }
}
safe(n) {
    stop(n);
    safe(n - 1);
}
stop(n) if(n < 0) exit(0);
until(n) {
    n = getchar();
    if(n != '*e') until(n);
}
