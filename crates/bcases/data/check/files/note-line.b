main() say('x'); /* it */
