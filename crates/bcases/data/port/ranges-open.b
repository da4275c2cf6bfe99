main() {
    switch(getchar()) {
    case < 'a': putchar('l'); break;
    case >= 'a': putchar('m');
    }
}
