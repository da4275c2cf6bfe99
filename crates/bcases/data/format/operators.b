f(a,b,p){x=a|b&a==b!=a<b<=a>b>=a<<b>>a+b-a%b*a/b;
x=|a;x=&a;x===a;x=!=a;x=<a;x=<=a;x=>a;x=>=a;x=<<a;x=>>a;x=+a;x=-a;x=%a;x=*a;x=/a;
x= -a;x= *p;x= &p;x= !a;x=-a- -b-(-b);x=a&&b;x=a* *p;x=a/ *p;
* p=1;* & p=1;(* p)(1)(2);v [ a ] [ b ]=(a) [ 1 ];p [ 1 ] ( 2 );f ( ) ( );++ * p;x=a ++ - ++ b;x=a -- - -- b;
! ! a;- ( a );! ( a );* ( a );& v [ 1 ];x=a?b?1:2:a?3:4;x=(a?b:p)?1:2;return;return (a) ;goto p;}
