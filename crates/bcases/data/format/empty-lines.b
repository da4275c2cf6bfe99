a 1;


b 2;
main() {

    auto n;

    n = 1;



    n = 2;
    if(n) {

        n = 3;

    }

    n = 4;

}
/* one */

/* two */


f() ;

