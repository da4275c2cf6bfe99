f() {
goto L;
}