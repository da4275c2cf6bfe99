length(s) {
    auto n;
    n = 0;
    while(char(s, n++) != '*e')
        ;
    return(n);
}
main()
    printn(length("abc"), 10);
