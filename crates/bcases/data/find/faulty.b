main() {
    x = ;
}
