#define AND &&
#define SIZE 3 // words
#define TEXT "a//b"
#define SUM 1 + 2
#define SIZE 4
main() { auto v[SIZE]; f(TEXT); if(v[0] AND v[1]) f(SUM * 2); }
f() ;
