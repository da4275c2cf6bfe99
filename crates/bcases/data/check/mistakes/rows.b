main() {
    auto a, b, s, x;
    a = b = x = 1;
    s = "abc";
    if(a && b)
        x = 2;
    x = a ** s;
    x = a * * s;
    x=-1;
    x=*s;
    x=&s;
    x =- 1;
    x =* b;
    x =& b;
    if(a & 1 == b)
        x = 2;
    if(a | 'b' != b)
        x = 2;
    if((a & 1) == b)
        x = 2;
    if(a & b == 1)
        x = 2;
    if(1 < a < 3)
        x = 2;
    if(a == b == x)
        x = 2;
    if(a <= b >= x)
        x = 2;
    if(!a == !b)
        x = 2;
    if(!a == b)
        x = 2;
    if(!a < b)
        x = 2;
    if(a < 40000)
        x = 2;
    if(32768 >= a)
        x = 2;
    if(a > 32767)
        x = 2;
    if(a == 40000)
        x = 2;
    printn(8, a);
    printn(10, a);
    printn(8, 10);
    printn(9, a);
    x = char(0, s);
    lchar(1, s, 'a');
    printn("abc", 10);
    putchar("a");
    putchar("ab");
    putchar("*n");
    putchar("abc");
    if(a == "ab")
        x = 2;
    if(a != "abc")
        x = 2;
    if("abc" == a)
        x = 2;
    printn(x, 10);
    s = "a\n";
    s = "\tb";
    s = "a\rb";
    s = "a\0";
    s = "a\\b";
    a = '\n';
    s = "\ab\";
    s = "n\";
}
