main() {
    auto v[9], p, i;
    p = v;
    *p++ = '\0';
    i = 0;
    while((v[i] = v[i + 1]) != '\0') i++;
    if(*p == '\0') while(*p) p++;
    lchar(v, 0, '\0');
}
