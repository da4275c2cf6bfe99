main() {
    g(a    /* after a */ + b);
    while(x) {
        /* alone */ }
    if(x) {
        y;
        /* last */ } else
        z;
}
