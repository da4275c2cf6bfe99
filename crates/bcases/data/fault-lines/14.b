f() { goto M;
goto L; }