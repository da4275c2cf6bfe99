f(x {
    return(x);
}
main() f(1);
