/* the limit comes deep in a recursion, which comes again */
main() while(1) down(5);
down(n) if(n) down(n - 1);
