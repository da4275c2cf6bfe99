main()
    if(1)
        if(0) putchar('a');
        else putchar('b');
