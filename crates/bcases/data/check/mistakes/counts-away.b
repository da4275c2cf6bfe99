main() {
    auto i, n;
    i = 10;
    while(i > 0) {
        putchar('a');
        i++;
    }
    i = 0;
    while(i < 10) {
        putchar('b');
        i =- 1;
    }
    n = 3;
    i = 5;
    while(i >= n) {
        putchar('c');
        i = i + 1;
    }
    while(i > 0) {
        i++;
        if(i == 20)
            return;
    }
    while(i < 10)
        i =+ 2;
    while(i > 0) {
        i++;
        i = i / 4;
    }
}
