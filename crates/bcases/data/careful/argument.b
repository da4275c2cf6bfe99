main() {
    auto x;
    f(x);
}
f(a) ;
