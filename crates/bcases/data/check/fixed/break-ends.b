main() {
    switch(getchar()) {
    case 'a':
        putchar('b')
        break
    case 'c':
        return
    }
}
