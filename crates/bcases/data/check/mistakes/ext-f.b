main() {
    printn(count + 1, 10);
}
count() {
    return(1);
}
