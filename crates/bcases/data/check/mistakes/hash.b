#include <stdio.h>
main() ;
