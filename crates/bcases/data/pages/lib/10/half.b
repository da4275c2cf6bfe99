main() {
    putnumb(half(6));
    putnumb(half(5));
}

half(n) {
    assert(n % 2 == 0, "half of an odd number");
    return(n / 2);
}
