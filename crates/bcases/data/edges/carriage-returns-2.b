f() /**/ goto l;
