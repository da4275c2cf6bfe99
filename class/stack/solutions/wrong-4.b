/* Wrong: pop leaves the number where it is: many isn't made smaller. */
/* Told: so it may never end */
numbers[99];
many;

push(x) {
    extrn numbers, many;

    if(many == 100)
        return(0);
    numbers[many++] = x;
    return(1);
}

pop() {
    extrn numbers, many;

    return(many > 0 ? numbers[many - 1] : 0);
}

depth() {
    extrn many;

    return(many);
}
