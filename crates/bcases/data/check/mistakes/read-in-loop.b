getnum(p) {
    auto c;
    c = getchar();
    *p = c - '0';
    return(c != '*e');
}
main() {
    auto sum, mark;
    while(getnum(&mark)) {
        sum =+ mark;
        printn(mark, 10);
    }
    printn(sum, 10);
}
