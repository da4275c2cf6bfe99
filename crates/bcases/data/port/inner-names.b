main() {
    int i = 1, s = 0;
    if(i) {
        int i = 5;
        while(i--) { auto s; s = i; }
        s += i;
    }
    f(i + s);
}
f(i) { if(i) { auto i[2]; i[0] = 1; } else { auto t; t = 2; } { auto t; t = 3; } return i; }
