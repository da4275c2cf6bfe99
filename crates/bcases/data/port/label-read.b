count 5;

main() {
    if(count > 3) goto count;
    putchar('a');
count:
    putchar('b');
    f(count);
}

f(n) {
    goto done;
done:
    return(n + 1);
}
done() putchar('d');
k() { k: goto k; }
int s = 2;
