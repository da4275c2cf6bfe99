main() {
    auto i;
    i = 0;
    while(1) {
        if(i == 3) break;
        printn(i++, 10);
    }
}
