main()
    printf("%d and %d is %d*n", 3, 4, 3 + 4);
