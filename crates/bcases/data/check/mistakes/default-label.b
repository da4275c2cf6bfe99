main() {
    auto a, x;
    a = 1;
    switch a {
    case 1:
    default:
    again:
        printn(x, 10);
        x = 1;
        if(a--)
            goto again;
    }
}
