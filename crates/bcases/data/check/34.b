f() while(1) break;
