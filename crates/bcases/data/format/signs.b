main() {
    auto x;
    x = - -1;
    x = -(- x);
    ++ ++x;
    x = a-- - --x;
    x = (a)-(b)*f(a)&v[1];
}
