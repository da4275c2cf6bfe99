main() {
    first(2);
    other(2);
    case1(2);
}
first(a) {
    auto x;
    if(a)
on:     a--;
    printn(x, 10);
    if(a)
        goto on;
}
other(a) {
    auto x;
    if(a)
        a--;
    else
on:     a++;
    printn(x, 10);
    if(a)
        goto on;
}
case1(a) {
    auto x;
    switch a {
        case 1: on: a++;
    }
    printn(x, 10);
    if(a)
        goto on;
}
