/* Wrong: pop gives the number that came first. */
/* Told: the first pop is 1 and not 3 */
numbers[99];
first;
many;

push(x) {
    extrn numbers, first, many;

    if(many == 100)
        return(0);
    numbers[(first + many++) % 100] = x;
    return(1);
}

pop() {
    extrn numbers, first, many;

    if(many == 0)
        return(0);
    many--;
    return(numbers[first++ % 100]);
}

depth() {
    extrn many;

    return(many);
}
