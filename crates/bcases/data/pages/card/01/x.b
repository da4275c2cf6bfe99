total; step[2] 1, 2, 3;
add(x) { extrn total; total =+ x; return(total); }
main() {
    extrn total, step; auto i;
    i = 0;
    while(i <= 2) add(step[i++]);
    printn(total, 10);  /* a name before a ( needs no extrn */
}
