main()
    puts("hello");
