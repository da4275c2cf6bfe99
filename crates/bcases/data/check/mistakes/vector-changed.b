count[6];
old[3];
main() {
    extrn count, old;
    auto mine 3, c;
    count = 0;
    while((c = getchar()) != '*e')
        count[c % 7]++;
    mine[0] = count[0];
    mine++;
    mine =+ 1;
    mine = "text";
    old = count;
    printn(mine[0] + old[0], 10);
}
