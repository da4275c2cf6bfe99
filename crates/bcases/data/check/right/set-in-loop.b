main() {
    auto i, last;
    i = 0;
    while(i < 3) {
        if(i)
            printn(last, 10);
        last = i++;
    }
}
