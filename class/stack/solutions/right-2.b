/* Up to 100 numbers, the last one on top, with a pointer to the first word that is free. */
words[99];
free;

push(x) {
    extrn words, free;

    if(depth() == 100)
        return(0);
    *free++ = x;
    return(1);
}

pop() {
    extrn words, free;

    if(depth() == 0)
        return(0);
    return(*--free);
}

depth() {
    extrn words, free;

    if(free == 0)
        free = words;
    return(free - words);
}
