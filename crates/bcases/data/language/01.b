main() {
    auto i;
    i = 0;
    while(i < 3) {
        i++;
        if(i == 2) goto on;
        printn(i, 10);
on: ;
    }
}
