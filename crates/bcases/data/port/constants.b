#define MAX 0x10
#define NEXT (MAX + 1)
END = '\n';
main() { auto v[MAX]; v[NEXT] = END; if(v[0] == EOF) v = NULL; }
