int add(int a, int b);
main() {
    printn(add(2, 3), 10);
}
add(a, b)
    return(a + b);
