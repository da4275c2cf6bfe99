/* A vector, or another word that is no function, called. */
first(n) {
    auto v 5;
    v[0] = n;
    return(v(0)); /* told */
}
second(n) {
    auto a 3, i;
    i = 0;
    while(i <= 3)
        n = a(i++); /* told */
}
marks[2] 1, 2, 3;
size 5;
third(i) {
    extrn marks, size;
    if(i > 0)
        return(marks(i) + 1); /* told */
    return(size(2)); /* missed */
}
fourth(i) {
    auto row 4, sum;
    sum = 0;
    if(i) sum =+ row /* told */
        (i);
    if(row(1) > row(2)) /* told */
        sum = 1;
    return(sum);
}
main() {
    first(1); second(2); third(1); fourth(0);
}
