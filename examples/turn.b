/* Turns the words of a vector and the characters of a string round. */
primes[3] 2, 3, 5, 7;
name "Thompson";

main() {
    extrn primes, name;
    auto i;

    turn(primes, &primes[3]);
    mirror(name);
    i = 0;
    while(i < 4) {
        printn(primes[i++], 10);
        putchar(' ');
    }
    i = 0;
    while(char(name, i) != '*e')
        putchar(char(name, i++));
    putchar('*n');
}

/* The words from one address to another one, turned round by pointers. */
turn(from, to) {
    while(from < to)
        swap(from++, to--);
}

swap(a, b) {
    auto word;

    word = *a;
    *a = *b;
    *b = word;
}

/* A string, turned round in its place. */
mirror(s) {
    auto i, j, c;

    i = j = 0;
    while(char(s, j) != '*e')
        j++;
    while(i < --j) {
        c = char(s, i);
        lchar(s, i++, char(s, j));
        lchar(s, j, c);
    }
}
