f(c) {
    switch(c) {
    case 0 :: 500: return(1);
    case 'z' :: 'a': return(2);
    case '*n' :: 'a': return(3);
    }
}
main() f(1);
