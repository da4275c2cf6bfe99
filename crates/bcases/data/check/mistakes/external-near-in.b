main() {
    printn(countr, 10);
}
f() {
    auto counter;
    {
        ;
    }
    counter = 1;
    ;
    counter = 2;
}
