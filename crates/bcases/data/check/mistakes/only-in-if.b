main() {
    auto s, i, n;
    s = "where are the three trees";
    i = 0;
    n = 0;
    while(char(s, i) != '*e') {
        if(char(s, i) == 'e') {
            n++;
            i++;
        }
    }
    i = 0;
    while(i < 10)
        if(n > 3)
            i++;
    i = 0;
    while(i < 10) {
        if(n > 3) {
            i++;
        }
        n++;
    }
    i = 0;
    while(i < 10) {
        if(n > 3)
            i++;
        else
            return;
    }
    i = 0;
    while(i < 10) {
        if(n > 3)
            i++;
        if(n < 3)
            i =+ 2;
    }
    i = 0;
    while(i < 10) {
        if(i < 10)
            i++;
        putchar('.');
    }
    printn(n, 10);
}
