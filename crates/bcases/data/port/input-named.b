int eof = -1;

main() {
    int c, end;
    end = -1;
    while((c = getchar()) != end) putchar(c);
    if(eof == c) putchar('.');
    while(getchar() + 1) putchar('x');
    while(~(c = getchar())) putchar(c);
    if(c + 1 == 0) putchar('y');
}
