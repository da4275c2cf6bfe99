main() {
    auto x, s;
    x = 1;
    s = "ab";
    on = s + x;
on:
    ;
    goto on;
}
