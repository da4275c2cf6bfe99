main() {
    printn(kind('7'), 10);
    printn(kind('x'), 10);
}

kind(c) {
    switch c {
        case '7': case '8': case '9':
            return(1);
        default:
            return(2);
    }
}
