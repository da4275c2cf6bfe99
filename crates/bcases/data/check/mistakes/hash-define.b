#define N 5
main() ;
