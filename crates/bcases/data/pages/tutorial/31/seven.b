main()
    printn(1 + 2 * 3, 10);
