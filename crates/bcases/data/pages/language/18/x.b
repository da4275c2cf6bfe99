main() {
    auto i;
    i = 0;
    while(1) {
        switch i {
            case 1: goto done;
            rest: printn(i, 10);
            goto done;
        }
        goto rest;
done:
        if(i == 3) goto out;
        i++;
    }
out:
    putchar('!');
}
