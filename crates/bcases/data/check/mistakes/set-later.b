set(p) {
    *p = 3;
}
main() {
    auto wide, deep, sum, c;
    sum = wide * deep;
    set(&wide);
    deep = 4;
    sum =+ wide * deep;
    c = 1;
    while(c < sum)
        c++;
    printn(sum, 10);
}
