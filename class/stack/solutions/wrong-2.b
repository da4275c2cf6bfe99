/* Wrong: pop doesn't ask whether there is a number, and push not whether there is room. */
/* Told: push to a full one is 1 and not 0 */
numbers[99];
many;

push(x) {
    extrn numbers, many;

    numbers[many++] = x;
    return(1);
}

pop() {
    extrn numbers, many;

    return(numbers[--many]);
}

depth() {
    extrn many;

    return(many);
}
