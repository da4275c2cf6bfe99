a; f() switch 1 { case 1: default: ;
case 1: ; }