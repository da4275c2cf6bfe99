main() {
    auto x;

    x = add(3, 4);
}

add(a, b) {
    auto sum;

    sum = a + b;
    return(sum);
}
