/* Names that other languages and old programs have for something else. */
read(s, i) return(char(s, i));

write(n) printn(n, 10);

main() {
    auto time, open;
    time = open = 3;
until:
    write(time);
    if(time-- > 0) goto until;
    putchar(read("ab", 0));
    write(*place(&open));
}

place(p) return(&p[0]);
