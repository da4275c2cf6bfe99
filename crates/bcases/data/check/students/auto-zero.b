main() {
    auto sum 0, i;
    i = 3;
    while(i > 0)
        sum =+ i--;
    printn(sum, 10);
}
