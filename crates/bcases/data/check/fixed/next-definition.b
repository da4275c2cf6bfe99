main() {
    auto i;

    i = 0;
    while(i < 3) {
        i++;
    putchar('a' + i);
}

twice(n)
{
    return(n + n);
}
