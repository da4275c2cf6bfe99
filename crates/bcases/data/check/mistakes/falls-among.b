letters 0;
digits 0;
others 0;
count(c) {
    extrn letters, digits, others;
    switch c {
    case 'a':
        letters++;
        goto done;
    case '0':
        digits++;
        if(letters > 0)
            others =+ 2;
    case ' ':
        others++;
        goto done;
    case 'b':
        letters++;
        goto done;
    }
done:
    ;
}
main() {
    extrn others;
    count('0');
    printn(others, 10);
}
