main() {
    auto x;
    x = 1;
    if(x < 40000)
        x = 2;
    if(x <= 32768)
        x = 2;
    if(40000 > x)
        x = 2;
    if(65535 >= x)
        x = 2;
    if(x < 32767)
        x = 2;
    if(x == 40000)
        x = 2;
    if(x & 1 == 1)
        x = 2;
    if(x | 1 != 1)
        x = 2;
    if(1 < x < 3)
        x = 2;
    if(1 <= x >= 3)
        x = 2;
    if(1 == x == 3)
        x = 2;
    if(1 == x != 3)
        x = 2;
    if(!x == 3)
        x = 2;
    if(!x < 3)
        x = 2;
    if(!x == !x)
        x = 2;
    if((x & 1) == 1)
        x = 2;
    if(1 < x & x < 3)
        x = 2;
    if(!(x == 3))
        x = 2;
    if(x&&x)
        x = 2;
    if(x& &x)
        x = 2;
    x = x**x;
}
