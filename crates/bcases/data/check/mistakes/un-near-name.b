main() {
    auto x, s;
    x = 1;
    s = "ab";
    x = summ;
}
f(sum) {
    return(sum);
}
