next() return(0);
main() {
    while(next()) ;
    if(next())
        putchar('a');
}
