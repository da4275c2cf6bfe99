/* one */
/* two
*/
