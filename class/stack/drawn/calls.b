/* Numbers that are drawn go onto the stack and come from it, more of them than it keeps. */
main() {
    auto i, x;

    i = 0;
    while(i++ < 400) {
        if(draw(5) > 1 - (i < 200)) {
            x = draw(1000);
            printn(push(x), 10);
        } else
            printn(pop(), 10);
        putchar(i % 20 ? ' ' : '*n');
    }
    printn(depth(), 10);
    while(depth())
        printn(pop(), 10);
}
