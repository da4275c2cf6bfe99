/* Words that are drawn, each pair at two addresses in both orders. */
main() {
    auto v 1, i;

    i = 0;
    while(i++ < 16) {
        v[0] = draw(21) - 10;
        v[1] = draw(21) - 10;
        if(i % 2)
            order(v, v + 1);
        else
            order(v + 1, v);
        printn(v[0], 10);
        putchar(' ');
        printn(v[1], 10);
        putchar('*n');
    }
}
