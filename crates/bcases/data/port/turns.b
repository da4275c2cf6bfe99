main() {
    auto i;
    i = 0;
    while(i < 5) {
        if(i++ == 2) continue;
        printn(i, 10);
    }
}
