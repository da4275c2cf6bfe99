#define DONE -1
#define NUL 0
main() {
    auto c, v[9], i;
    while(-1 != (c = getchar())) putchar(c);
    while((v[i = 0] = getchar()) != -1) ;
    while((c = getchar()) > EOF) if(c <= -1) i = 0 > c;
    while((c = getchar()) != DONE) ;
    if(c == DONE) i = NUL == char(v, 0);
    while(char(v, i) != NUL) lchar(v, i, NUL);
}
