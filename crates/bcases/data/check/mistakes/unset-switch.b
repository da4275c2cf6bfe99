main() {
    auto i, kind;
    i = 3;
    while(i--) {
        switch kind {
            case 1:
                putchar('a');
        }
        kind = i;
    }
}
