main() {
    auto v 2, i;
    i = 0;
    while(1) {
        switch i {
            case 3:
                break;
            default:
                v[i] = i;
        }
        v[i++] = 1;
    }
}
