fizz(n) {
    if(n % 3 == 0)
        putchar('f');
    else if(n % 5 == 0)
        putchar('b');
    else if(n % 15 == 0)
        putchar('z');
    else
        printn(n, 10);
}
grade(p) {
    if(p >= 50)
        putchar('c');
    else if(p >= 75)
        putchar('b');
    else if(p == 100)
        putchar('a');
    else if(p < 20)
        putchar('e');
    else if(p == 30)
        putchar('d');
    else if(p == 30)
        putchar('x');
}
right(n, p) {
    if(n % 15 == 0)
        putchar('z');
    else if(n % 3 == 0)
        putchar('f');
    else if(n % 5 == 0)
        putchar('b');
    if(p >= 75)
        putchar('b');
    else if(p >= 50)
        putchar('c');
    else if(n >= 90)
        putchar('a');
    if((n = n - 1) > 5)
        putchar('1');
    else if((n = n - 1) > 5)
        putchar('2');
}
main() {
    fizz(15);
    grade(80);
    right(15, 80);
}
