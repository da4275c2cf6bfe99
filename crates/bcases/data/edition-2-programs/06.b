main() {
    auto i, j;
    i = 0;
    while(i < 3) {
        switch i {
            case 0: j = 0; while(1) { if(j == 2) break; putchar('0' + j); j++; } putchar('z');
            case 1: putchar('y'); break;
            case 2: while(1) { switch 7 { default: break; } break; } putchar('q');
        }
        putchar('.');
        i++;
    }
}
