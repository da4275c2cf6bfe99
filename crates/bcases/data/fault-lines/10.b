f() {
case 2: ; }