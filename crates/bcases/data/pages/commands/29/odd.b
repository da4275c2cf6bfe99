odd(n) {
    return(m % 2);
}
