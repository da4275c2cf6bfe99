main() {
    auto c, cents;
    cents = 0;
    while((c = getchar()) != '*e') {
        switch(c) {
            case 'n':
                cents =+ 5;
                goto next;
            case 'd':
                cents =+ 10;
            case 'q':
                cents =+ 25;
                goto next;
        }
        cents =- 1;
    next: ;
    }
    printn(cents, 10);
}
