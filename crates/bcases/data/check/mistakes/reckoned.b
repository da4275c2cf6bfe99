v[4] 5, 2, 8, 3, 9;
main() {
    extrn v;
    auto i, sum, most, c, n;
    sum = most = i = n = 0;
    while(i < 5) {
        sum =+ v;
        sum = sum + v;
        if(v[i] > v)
            most = v[i] * v;
        i++;
    }
    c = getchar();
    while(n < c)
        n++;
    if(c >= '0' & c <= '9')
        sum =+ c;
    printn(sum + most + n, 10);
}
