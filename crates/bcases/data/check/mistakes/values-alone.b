days 31, 28, 31;
main() {
    extrn days;
    auto m;
    m = 0;
    while(m < 3)
        printn(days[m++], 10);
}
