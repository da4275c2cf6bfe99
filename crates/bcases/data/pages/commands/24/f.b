main(){auto i;i=0;while(i<3){putchar('a'+i);i++;}/* abc */
if(i==3)putchar('*n');else return(1);}
