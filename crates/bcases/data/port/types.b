int n = -5, v[3] = {1, 2};
char *s;
int f(int a, char *b);
int f(a, b)
int a;
char *b;
{
    extern int n;
    register int i;
    int k = 2, m;
    return a;
}
main() f(1);
