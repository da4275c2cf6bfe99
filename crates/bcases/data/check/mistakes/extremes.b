v[4] 5, 2, 8, 3, 9;
main() {
    extrn v;
    auto i, max, min, low 4, top, len, longest;
    i = 0;
    while(i < 5) {
        low[i] = -i;
        i++;
    }
    low[2] = -7;
    max = v[0];
    min = 0;
    top = 0;
    longest = 0;
    len = 0;
    i = 0;
    while(i < 5) {
        if(v[i] < max)
            max = v[i];
        if(v[i] < min)
            min = v[i];
        if(low[i] > top)
            top = low[i];
        len =+ v[i];
        if(len > longest)
            len = longest;
        i++;
    }
    printn(max + min + top + longest, 10);
}
