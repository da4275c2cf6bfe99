f(a) {
    auto b,
        a;
    a = b;
}
