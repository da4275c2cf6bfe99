five() return(5);
main() {
    printn(five, 10);
}
