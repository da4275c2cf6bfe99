f() switch 1 {
default: ;
case 2: ;
default: ; }