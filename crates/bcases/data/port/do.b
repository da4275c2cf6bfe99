main() {
    auto i;
    i = 3;
    do {
        if(i == 2) break;
        i--;
    } while(i);
}
