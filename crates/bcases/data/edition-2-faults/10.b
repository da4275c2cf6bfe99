f() { goto L;
break; }