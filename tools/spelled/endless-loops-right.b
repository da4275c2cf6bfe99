/* While(1) with a way out. */
first() {
    auto i;
    i = 0;
    while(1) {
        if(i++ == 10)
            return(i);
    }
}
second() {
    while(1)
        if(getchar() == '*e')
            goto done;
done: ;
}
third(n) {
    while(1) {
        n--;
        if(n == 0)
            exit(3);
        check(n);
    }
}
check(n) if(n < -100) exit(1);
main() {
    first(); second(); third(4);
}
