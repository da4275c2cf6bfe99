char greeting[] "hello\n";
char other[] = "more";
char room[4] "x";
main() {
    extrn greeting, other;
    putchar(char(greeting, 0));
    putchar(char(other, 1));
}
