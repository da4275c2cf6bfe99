f(x) {
    if(x)
        return(1);
    return(2);
    putchar('a');
}
g(x) {
    if(x) {
        return;
        x = 0;
    }
    return(3);
end:
    putchar('b');
    if(x)
        goto end;
    switch x {
        case 1: return(4);
        case 2: return(5);
    }
    return(6);
    goto end;
}
main() {
    f(1);
    g(1);
}
