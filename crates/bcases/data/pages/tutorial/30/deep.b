main()
    deep(1);

deep(n)
    return(1 + deep(n + 1));
