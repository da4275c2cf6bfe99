f() ;
main() {
    f() = 5;
}
