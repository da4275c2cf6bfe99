/* the calls are alike, but for a word of main */
main() {
    auto i;
    i = 0;
    while(1) {
        f();
        i++;
    }
}
f() ;
