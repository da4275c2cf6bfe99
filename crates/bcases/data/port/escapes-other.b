main() {
    auto s;
    s = "U*b_N*rtwo*n";
    f(s, "5*x", "a*0127", '*062', '*0');
}
f(s) ;
