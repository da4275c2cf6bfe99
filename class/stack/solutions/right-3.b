/* Up to 100 numbers, the last one on top. */
numbers[99];
many;

push(x) {
    extrn numbers, many;

    if(many == 100)
        return(0);
    numbers[many++] = x;
    return(1);
}

pop() {
    extrn numbers, many;

    assert(many >= 0, "stack: less than nothing");
    return(many > 0 ? numbers[--many] : 0);
}

depth() {
    extrn many;

    return(many);
}
