main() {
    auto v[9], s[5], i;
    int w[3] = { 7 };
    v[i = 0] = '\0';
    while(v[i]) i++;
    lchar(s, 2, 0);
    if(char(s, 2) == '\0') i = w[1] >> 1;
    return i;
}
