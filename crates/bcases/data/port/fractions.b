main() {
    auto x, i;
    x = # i;
    if(x #< i) x = x #+ i; # a remark
    return x;
}
