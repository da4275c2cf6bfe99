/* Five marks: their mean, and which one is the best. */
marks[4] 12, 17, 9, 20, 14;

main() {
    extrn marks;
    auto i, sum, best;

    sum = best = 0;
    i = 0;
    while(i < 5) {
        sum = sum + marks[i];
        if(marks[i] > marks[best])
            best = i;
        i++;
    }
    printn(sum / 5, 10);
    putchar(' ');
    printn(best, 10);
    putchar('*n');
}
