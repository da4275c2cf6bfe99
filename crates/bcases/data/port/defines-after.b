/**/#define MOST 5
  /* two
   lines */ #define NEXT (MOST + 1)
#define LAST 7 # seven
main() { auto v[MOST]; v[NEXT] = LAST; } #define no more
