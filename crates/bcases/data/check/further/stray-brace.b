main() {
    putchar('a');
}
}

f() {
    putchar('b');
}
}

g() {
    y = 2;
}
