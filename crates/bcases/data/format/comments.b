main() {

/* first */
    a();/* at the end */
    b();     /* five blanks */
    if(x)   /* of the condition */
        c();
/* before else */
    else
        /* before d */
        d();
on:
    switch(x) {
/* of the case */
    case 1: /* beside */
        e();
        /* before the end */
    }
    while(x) {
        /* alone */
    }
    g( a /* after a */ , b );

    h();
/* more */

}
/**//* */
