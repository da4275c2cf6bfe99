f() case 1: ;
