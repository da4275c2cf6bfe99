main() {
    auto a;
    a = getchar();
    if(a > 40000)
        a = 1;
    if(a <= 40000)
        a = 1;
    if(65535 > a)
        a = 1;
    if(65535 < a)
        a = 1;
    if(a >= a > 3)
        a = 1;
    if(a > a <= 3)
        a = 1;
    if(!a > 3)
        a = 1;
    if(!a != 3)
        a = 1;
    if(!'a' >= a)
        a = 1;
}
