/* A digit. */
main()
    putchar('0' + draw(10));
