low[32766];
high[2] 7, 8, 9;
one[0];
empty[];
next;

number(n) {
    printn(n, 10);
    putchar('*n');
}

main() {
    extrn low, high, one, empty, next;
    auto word, v 2;

    number(&empty - &one);
    number(&next - &empty);
    number(high);
    number(&high[1]);
    high[1] = 1234;
    low[1] = 55;
    number(high[1]);
    number(low[1]);
    number("ab");
    number(char("ab", 1));
    number(&word);
    number(v - &v);
    v[1] = 77;
    number(*(&v + 2));
    word = 'ab';
    number(char(&word - 16384, 32768));
    number(char(&word - 16384, 32769));
    number(lchar(&word, 0, 65535));
    number(word);
    number(lchar(&word, 0, 72, 73));
    number(lchar(&word, 1));
    number(word);
}
