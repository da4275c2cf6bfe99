main() {
    auto i;

    i = 0;
    while(i < 3) {
        auto i;

        i = 5;
        putchar('a');
    }
}
