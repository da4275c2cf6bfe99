main() mian();
mian() ;
