f() return(1);
