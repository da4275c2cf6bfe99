main() {
    auto n;
    n = 0;
    goto in;
again:
    while(n < 4) {
        switch n {
            case 1: while(1) { in: putchar('i'); break; } putchar('b'); break;
            case 2: goto out;
            default: putchar('d');
        }
        putchar('.');
        n++;
    }
    putchar('x');
out:
    putchar('o');
    if(n == 2) { n = 3; goto again; }
}
