v[3] 1,-2,
'a', "x  y", /* c */ n;
w  -1 ; n;
f(a) { on: off : a=a+
   1; if(a &
  a) goto on; { a ; } switch (a)
 case 5 : f( a ) ; }
