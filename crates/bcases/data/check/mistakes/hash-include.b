#include X
main() ;
