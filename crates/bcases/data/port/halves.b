show(v, i) {
    auto w;
    w = v[i];
    putchar(w / 512);
    putchar(v[i] & 0377);
    w = 'a' << 8 | 'b';
    w = (w * 256) + 1;
    w = w & 0777;
    return(w >> 9);
}

main() show("ab", 0);
