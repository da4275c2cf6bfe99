s "ab", t, 'x';
t;
main() ;
