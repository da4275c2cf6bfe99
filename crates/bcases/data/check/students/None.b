find() {
    return(None);
}
main() {
    printn(find(), 10);
}
