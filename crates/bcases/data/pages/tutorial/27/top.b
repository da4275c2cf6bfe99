/* Five marks, the best one last. */
marks[4] 12, 17, 9, 20, 14;

main() {
    extrn marks;
    auto i;

    arrange(marks, marks + 5);
    i = 0;
    while(i < 5) {
        printf("%d: %d*n", i + 1, marks[i]);
        i++;
    }
}
