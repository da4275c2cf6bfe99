main() ;
)
