main() {
    auto x;
    x = 1 // remark
    ;
}
