/* Reads a digit, an operator and a digit, and writes what comes of them. */
main() {
    auto a, b, sign;

    a = getchar() - '0';
    sign = getchar();
    b = getchar() - '0';
    switch sign {
        case '+':
            printn(a + b, 10);
            goto done;
        case '-':
            printn(a - b, 10);
            goto done;
        case 'x': case '**':
            printn(a * b, 10);
            goto done;
    }
    putstr("no such sign");
done:
    putchar('*n');
}
