main() if(1) auto a; extrn b; a=b; b 2;
f() { switch(1) { case 1: while(1) here: case 2: if(2) ; else return; default: ; } }
