main() {
    auto line[20], count[20], n, v;
    n = getstr(line);
    v = getvec(n / 4 + 1);
    n = 0;
    while(char(line, n) != '*e') n =+ 1;
    count[n >> 2] = 0;
    concat(v, line, "s");
    putstr(v);
}
