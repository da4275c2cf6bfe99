main() {
    auto i;
    i = 0;
    while(i++ < 3) {
        if(i == 2)
            continue;
        printn(i, 10);
    }
}
