main() {
    auto digits;
    digits = 0;
    while(1)
        switch getchar() {
            case '*e':
                break;
            case '0': case '1':
                digits++;
        }
}
