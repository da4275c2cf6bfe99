f()
while(1) default: ;