main():
    putchar('y');
