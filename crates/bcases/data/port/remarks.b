// a "b"
# c
#include <x.h> /* d */
main() exit(); // e */ f
