main() {
    auto i;
    while(i < 3) ;
}
