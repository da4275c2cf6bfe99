stack[99];
top 0;
heights[2] 172, 165, 181;
main() {
    extrn heights;
    auto x, p;
    push('a');
    putchar(pop());
    swap(heights[0], heights[1]);
    x = 5;
    p = x;
    *p = 6;
    printn(x, 10);
}
push(c) {
    extrn stack, top;
    stack[top++] = c;
}
pop() {
    extrn stack, top;
    return(stack[top--]);
}
swap(a, b) {
    auto t;
    t = *a;
    *a = *b;
    *b = t;
}
