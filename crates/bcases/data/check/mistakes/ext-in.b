main() {
    printn(count, 10);
}
f() {
    {
        ;
    }
    count();
}
count() ;
