f() switch 1 { case 2: ; case 2: ; }
