main() {
    auto c;
    c = getchar()
    if (c == 'a') {
        putchar(c);
    }
    elseif (c) {
        putchar('b');
    }
    else
        return 1;
}

  f() {
    x = 1;
  }

g() {
    y = 2;
}
