/* The command line
   isn't there. */  main (
    /* how many */ n
) return(n);
mine(main) return(main);
