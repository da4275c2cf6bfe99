main()
    printn(5, 1);
