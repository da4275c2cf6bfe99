#define PLUS '+'
#define STAR '\*'
#define OPEN '{'
#define TWO '+-'
#define SPACES "  "
#define LETTER 'a'
main() {
    switch(getchar()) {
        case PLUS: putchar(LETTER);
        case OPEN: putchar(PLUS);
    }
    x += 1;
}
x;
