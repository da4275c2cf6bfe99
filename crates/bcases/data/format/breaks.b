f(a,
b) {
while(a <
b & b
< a)
g(a,
b);
if(g(a,
b)) return(a +
b);
switch a +
b {
case
1:
x = a ?
b :
1;
case 2: case 3:
case 4: ;
}
v[
a] = (
b);
goto
p;
extrn a,
c;
}
w 1, 2,
3;
