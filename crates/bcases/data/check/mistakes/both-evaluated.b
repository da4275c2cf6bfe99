mean(sum, count) {
    if(count != 0 & sum / count >= 18)
        putchar('a');
    if(sum > 1 & count > 0 & sum % count == 0)
        putchar('b');
    if(count != 0 & sum / 2 > count)
        putchar('c');
    if(count != 0)
        if(sum / count >= 18)
            putchar('d');
}
main() {
    mean(40, 0);
}
