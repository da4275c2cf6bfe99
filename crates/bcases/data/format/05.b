main()
    putchar(65);
