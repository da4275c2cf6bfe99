a; a;
