main() f(1);
f(a) {
    if(a)
        5;
}
