f(n) {
    switch n {
    case 12, 1, 2: return(1);
    }
    return(0);
}
