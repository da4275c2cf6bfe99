

/* one */
/* two */ main() {   /* three */

  a(); /* four */ b();   /* five */


  /* six
 6 */

      c( x, /* seven */ y ) ;
  d(x, /* eight */
y);
  if(x) { y; } /* nine */
  else z;


  /* ten */
}



n;  /* eleven */
/* twelve */

