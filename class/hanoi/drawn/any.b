/* A digit up to 7. */
main()
    putchar('0' + draw(8));
