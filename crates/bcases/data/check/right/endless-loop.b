main() {
    while(1) ;
}
