main() {
    auto c, end;
    end = -1;
    while((c = getchar()) != end) putchar(c);
    end = 'x';
    while((c = getchar()) != end) putchar(c);
}
