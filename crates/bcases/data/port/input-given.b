get() return getchar();
main() {
    auto c, n;
    n = 0;
    while((c = get()) != -1)
        switch(c) {
            case -1: n = 1;
        }
    printn(n, 10);
}
