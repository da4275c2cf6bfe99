main() {
    f(1);
    f(0);
}
f(first) {
    auto kept;
    if(first) kept = 5;
    printn(kept, 10);
}
