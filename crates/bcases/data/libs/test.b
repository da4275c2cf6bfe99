/* test.b: tests of functions, for exercises. It needs no other file. A program calls test, teststr and testvec, and tests
   at its end. */

/* test(name, got, wanted) counts a test, which is right where the two words are equal. Else it writes a line with both,
   after the string name. Gives 1 where it is right, else 0.
   Known from: this project. */
test(name, got, wanted) {
    if(got == wanted)
        return(testput(1, name));
    testput(0, name);
    testnums(got, wanted);
}

/* teststr(name, got, wanted) does the same with two strings. Of each it writes at most 40 characters. 0 is no string.
   Known from: this project. */
teststr(name, got, wanted) {
    auto i;

    i = 0;
    while(got != 0 & char(got, i) == char(wanted, i))
        if(char(got, i++) == '*e')
            return(testput(1, name));
    testput(0, name);
    testsay(" is ");
    testquot(got);
    testsay(" and not ");
    testquot(wanted);
    putchar('*n');
}

/* testvec(name, got, n, a, b, ..) does the same with the n words got[0] to got[n - 1], which should be a, b and so on, at
   most eight. It writes the first index at which they differ, and the two words.
   Known from: this project. */
testvec(name, got, n, a, b, c, d, e, f, g, h) {
    auto i;

    i = 0;
    while(i < n ? got[i] == (&a)[i] : 0)
        i++;
    if(i >= n)
        return(testput(1, name));
    testput(0, name);
    putchar('[');
    printn(i, 10);
    putchar(']');
    testnums(got[i], (&a)[i]);
}

/* tests() writes how many tests were right and how many wrong, and ends the run, with the status 0 where none was wrong
   and else 1.
   Known from: this project. */
tests() {
    extrn testok, testbad;

    printn(testok, 10);
    testsay(" right, ");
    printn(testbad, 10);
    testsay(" wrong*n");
    exit(testbad != 0);
}

/* Counts a test, and gives whether it is right. Of a wrong one it writes how its line begins. */
testput(ok, name) {
    extrn testok, testbad;

    if(ok)
        testok++;
    else {
        testbad++;
        testsay("wrong: ");
        testsay(name);
    }
    return(ok);
}

/* Writes the two words of a wrong test, and ends its line. */
testnums(got, wanted) {
    testsay(" is ");
    printn(got, 10);
    testsay(" and not ");
    printn(wanted, 10);
    putchar('*n');
}

/* Writes a string. */
testsay(s) {
    auto i, c;

    i = 0;
    while((c = char(s, i++)) != '*e')
        putchar(c);
}

/* Writes a string in quotes, or its first 40 characters and two dots. */
testquot(s) {
    auto i, c;

    if(s == 0) {
        testsay("no string");
        return;
    }
    putchar('"');
    i = 0;
    while((c = char(s, i)) != '*e' & i < 40) {
        putchar(c);
        i++;
    }
    testsay(c == '*e' ? "*"" : "*"..");
}

testok;
testbad;
