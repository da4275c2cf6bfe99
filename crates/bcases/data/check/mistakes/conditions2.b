main() {
    auto a, b, c;
    a = b = c = 1;
    if(a = b)
        c = 2;
    if(a = "b")
        c = 2;
    if(a = b + 1)
        c = 2;
    if(a === b + 1)
        c = 2;
    if(a =!= b)
        c = 2;
    if(a =< b)
        c = 2;
    if(a =<= b)
        c = 2;
    if(a => b)
        c = 2;
    if(a =>= b)
        c = 2;
    if(a =- 1)
        c = 2;
    if(a =- b)
        c = 2;
    if(a =- 1 + b)
        c = 2;
    if(a =+ 1)
        c = 2;
    while(c = getchar() != 4)
        b = 2;
    while(c = getchar() > 4)
        b = 2;
    while(c = a == 4)
        b = 2;
    while(c = a < 4)
        b = 2;
    while(c = getchar() + 4)
        b = 2;
    while((c = getchar()) != 4)
        b = 2;
    if((a = b) == c)
        c = 2;
    if(a) ;
    if(a) ;
    else
        c = 2;
    while(a) ;
    while(1 & a) ;
    while(a & 1) ;
    while(a--) ;
    while(++a) ;
    while(putchar(a)) ;
    while((a = b)) ;
    if(b)
        while(1) ;
    else
        while('a') ;
}
