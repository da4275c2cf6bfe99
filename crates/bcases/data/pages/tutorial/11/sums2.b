/* The same in edition 2. */
main() {
    auto a, b, sign;

    a = getchar() - '0';
    sign = getchar();
    b = getchar() - '0';
    switch sign {
        case '+':
            printn(a + b, 10);
            break;
        case '-':
            printn(a - b, 10);
            break;
        case 'x': case '**':
            printn(a * b, 10);
            break;
        default:
            putstr("no such sign");
    }
    putchar('*n');
}
