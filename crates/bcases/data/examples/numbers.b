/* A printn of its own, from the users' reference, which hides the library's. */
printn(n, b) {
    extrn putchar;
    auto a;

    if(a = n / b)
        printn(a, b);
    putchar(n % b + '0');
}

main() {
    printn(1972, 10);
    putchar('*n');
    printn(1972, 8);
    putchar('*n');
}
