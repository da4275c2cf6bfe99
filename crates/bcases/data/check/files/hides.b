main() {
    auto say 1;
    say[0] = 1;
    return(say[0]);
}
