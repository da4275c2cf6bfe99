/* Wrong: the vector has no room: numbers[9] has ten words. */
/* Told: depth of a full one is 10 and not 100 */
numbers[9];
many;

push(x) {
    extrn numbers, many;

    if(many == 10)
        return(0);
    numbers[many++] = x;
    return(1);
}

pop() {
    extrn numbers, many;

    return(many > 0 ? numbers[--many] : 0);
}

depth() {
    extrn many;

    return(many);
}
