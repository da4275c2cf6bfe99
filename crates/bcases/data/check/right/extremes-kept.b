v[4] 5, 2, 8, 3, 9;
main() {
    extrn v;
    auto i, max, min, most, depth, deepest, c;
    max = min = v[0];
    i = 1;
    while(i < 5) {
        if(v[i] > max)
            max = v[i];
        if(v[i] < min)
            min = v[i];
        i++;
    }
    most = 100;
    i = 0;
    while(i < 500) {
        i =+ 30;
        if(i > most)
            i = most;
        if(i == most)
            return;
    }
    depth = deepest = 0;
    while((c = getchar()) != '*e') {
        if(c == '(')
            depth--;
        if(depth < deepest)
            deepest = depth;
    }
    printn(max + min + deepest, 10);
}
