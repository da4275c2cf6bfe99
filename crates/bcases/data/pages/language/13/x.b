main() {
    auto i;
    i = 0;
    while(1) {
        switch i {
            case 1: break;
            default: printn(i, 10);
        }
        if(i == 3) break;
        i++;
    }
    putchar('!');
}
