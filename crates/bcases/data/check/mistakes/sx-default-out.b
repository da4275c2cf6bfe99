main() {
    while(1)
        default: ;
}
