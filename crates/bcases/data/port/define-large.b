#define MANY 40000
#define SHIFTED '\q'
main() {
    auto n;
    n = MANY;
    printn(n / 2, 10);
}
