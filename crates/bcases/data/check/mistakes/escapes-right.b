main() {
    auto s;
    s = "*0*e*(*)*t***'*"*n*q";
    printn(s, 10);
}
