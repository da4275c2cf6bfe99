used[2];
i;
place(at) {
    extrn used, i;
    if(at == 3)
        return;
    i = 0;
    while(i < 3) {
        if(used[i] == 0) {
            used[i] = at;
            place(at + 1);
            used[i] = 0;
        }
        i++;
    }
}
right(at) {
    auto i;
    i = 0;
    while(i < at) {
        right(i);
        i++;
    }
}
main() {
    place(0);
    right(3);
}
