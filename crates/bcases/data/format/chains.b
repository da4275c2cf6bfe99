main(){if(a)if(b)c;else d;else if(e){f;}else if(g)h;else{i;}
while(a)while(b){c;}
{{d;}{}}
switch a{case 1:{b;}case 2:if(c)d;else e;f;}
switch a case 1:b;
;;
if(a);else;
on:off:{a;}
case1:b;
while(a)if(b)c;else{d;}
}
