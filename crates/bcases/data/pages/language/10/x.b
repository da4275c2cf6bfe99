main() {
    auto where;
    where = two;
    goto where;
one:
    putchar('1');
two:
    putchar('2');
}
