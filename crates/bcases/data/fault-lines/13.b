f() { goto M;
goto
L; M: ; }