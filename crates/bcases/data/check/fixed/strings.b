main() {
    switch(getchar()) {
    case "a": /* a */
        putchar('y');
    }
}
