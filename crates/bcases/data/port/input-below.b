get() return(getchar());
main() {
    auto c;
    for(;;) {
        c = get();
        if(c < 0) exit();
        putchar(c);
    }
}
