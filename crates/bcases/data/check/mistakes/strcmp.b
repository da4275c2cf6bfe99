main()
    if(strcmp("ab", "ac") == 0) putchar('y');
