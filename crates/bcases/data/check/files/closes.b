/* closed */ g() ;
