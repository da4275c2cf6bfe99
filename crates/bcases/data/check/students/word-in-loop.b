grades 5;
main() {
    extrn grades;
    auto i;
    i = 0;
    while(i < 5)
        grades[i++] = 0;
}
