// remark
main() ;
