main() {
    auto s;
    s = "abc";
    if(s == "abc")
        putchar('y');
}
