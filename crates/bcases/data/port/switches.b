f(c) {
    switch(c) case 'a' :: 'c': return 1;
    switch(c) {
    case 1::3: return(2);
    case -1: return(3);
    }
}
main() printn(f('b') + f(2), 10);
