price[3] 050, 120, 075, 200;
masks 1, 2, 4, 010, 020;
main() {
    extrn price, masks;
    auto n;
    n = 025 + 40;
    n = n & 017 | 12;
    printn(price[0] + masks + n + 07, 10);
}
bits(n) return(n + 0177);
