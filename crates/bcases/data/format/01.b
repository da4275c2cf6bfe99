main ( a,b )
{ auto v 10 ,x;extrn n;
if ( a ) x=-b ; else if(b) { x= - - 1; v [ 0 ] ++ ; } else
{ ; }
while(x<b)if(v[x])x=+1;else x=a?b:-c;
switch x { case 1: case 2: foo( * v,& x ) ; break ; case -3: return ( ! x ) ; default : return ; }
}
f() ; g(a) return(a) ;h(){}
