main() {
    auto c;
    c = getchar();
    if(c = 'a') {
        putchar('y');
    }
    return(0);
}
