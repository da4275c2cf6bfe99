main() {
    printn(count, 10);
}
f() {
    {
        {
            ;
        }
    }
}
count 5;
