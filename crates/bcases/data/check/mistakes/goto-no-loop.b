main() {
    auto x;
    if(getchar() == 'q')
        goto out;
    printn(x, 10);
out:
    ;
}
