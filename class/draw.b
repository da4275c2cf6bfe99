/* Numbers that are drawn: the same ones for the same seed, which is the number that the input begins with. */
drawword;
drawread;

/* Gives a number from 0 to n - 1. */
draw(n) {
    extrn drawword, drawread;
    auto c;

    if(drawread == 0) {
        drawread = 1;
        while((c = getchar()) >= '0' & c <= '9')
            drawword = drawword * 10 + c - '0';
    }
    drawword = drawword * 25173 + 13849;
    return((drawword >> 3) % n);
}
