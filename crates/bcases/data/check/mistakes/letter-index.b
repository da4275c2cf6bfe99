count[25];
all[255];
main() {
    extrn count, all;
    auto c;
    while((c = getchar()) != '*e') {
        if(c >= 'a' & c <= 'z')
            count[c]++;
        if(c >= 'a' & c <= 'z')
            count[c - 'a']++;
        if(c >= 'a')
            all[c]++;
        if(c >= 'A') {
            c =- 'A';
            count[c]++;
        }
    }
}
