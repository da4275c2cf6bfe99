#pragma X
main() ;
