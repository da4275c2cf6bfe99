f(s) {
    return(s);
}

main() {
    auto s;
    s = "ab";
    ++f(s);
}
