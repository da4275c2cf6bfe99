/* Reckons each line of its input, operators after their operands: 2 3 4 * - is 2 - 3 * 4.
   This is a program of edition 2 of the language. */
stack[99];
depth;

main() {
    extrn depth;
    auto c, n;

    while(1) {
        c = getchar();
again:
        switch c {
            case '*e':
                return;
            case ' ':
                break;
            case '*n':
                while(depth) {
                    printn(pop(), 10);
                    putchar(depth ? ' ' : '*n');
                }
                break;
            case '+':
                push(pop() + pop());
                break;
            case '-':
                n = pop();
                push(pop() - n);
                break;
            case '**':
                push(pop() * pop());
                break;
            case '/':
                n = pop();
                push(pop() / n);
                break;
            default:
                if(c < '0' | c > '9') {
                    putchar('?');
                    break;
                }
                n = 0;
                while(c >= '0' & c <= '9') {
                    n = n * 10 + c - '0';
                    c = getchar();
                }
                push(n);
                goto again;
        }
    }
}

push(x) {
    extrn stack, depth;

    if(depth < 100)
        stack[depth++] = x;
}

pop() {
    extrn stack, depth;

    return(depth ? stack[--depth] : 0);
}
