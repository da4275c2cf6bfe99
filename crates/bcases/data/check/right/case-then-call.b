push(n) printn(n, 10);
pop() return(1);
main() {
    auto n;
    switch '-' {
        case '-':
            n = pop();
            push(pop() - n);
    }
}
