/* February 1972 as a calendar. This is a program of edition 2 of the language. */
main() {
    auto day, at;

    string("Mo Tu We Th Fr Sa Su*n");
    at = 0;
    while(at < first(2)) {
        string("   ");
        at++;
    }
    day = 1;
    while(1) {
        if(day < 10)
            putchar(' ');
        printn(day, 10);
        if(day++ == days(2))
            break;
        putchar(++at % 7 ? ' ' : '*n');
    }
    putchar('*n');
}

/* How many days after a Monday a month of 1972 begins. */
first(month) {
    auto m, sum;

    sum = 5;                       /* January began on a Saturday. */
    m = 1;
    while(m < month)
        sum =+ days(m++);
    return(sum % 7);
}

days(month) {
    switch month {
        case 2:
            return(29);
        case 4: case 6: case 9: case 11:
            return(30);
        default:
            return(31);
    }
}

string(s) {
    auto i, c;

    i = 0;
    while((c = char(s, i++)) != '*e')
        putchar(c);
}
