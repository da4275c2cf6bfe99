name[4];
main() {
    extrn name;
    auto line 9, v 9;
    fetch(name);
    fetch(line);
    v[0] = count(v);
}

fetch(s) {
    auto c, i;
    i = 0;
    while((c = getchar()) != '*n' & c != '*e')
        lchar(s, i++, c);
    lchar(s, i, '*e');
}

count(v) return(v[9]);
