main() {
    auto i;
    i = 0;
    switch 1 {
        case 1:
            while(i < 5) {
                switch i {
                    case 1: putchar('a'); break;
                    case 3: i = 9; break;
                    default: putchar('d');
                }
                putchar('.');
                i++;
            }
            putchar('w');
            break;
        default: putchar('x');
    }
    putchar('e');
}
