main()
    printn(atoi("12") + 1, 10);
