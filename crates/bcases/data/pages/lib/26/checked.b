v[2] 5, 6, 7;

main() {
    extrn v;

    printn(at(v, 3, 1), 10);
    printn(at(v, 3, 3), 10);
}

at(words, count, i) {
    if(i < 0 | i >= count)
        raise("there is no such index", 3);
    return(words[i]);
}
