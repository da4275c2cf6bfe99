main() {
    auto n;
    n = getchar();
    if(n == 'a')
        putchar('1');
    elif(n == 'b')
        putchar('2');
}
