/* The first number above 1000 that 17 divides. */
main() {
    auto n;

    n = 1001;
    while(1) {
        if(n % 17 == 0)
            break;
        n++;
    }
    printn(n, 10);
    putchar('*n');
}
