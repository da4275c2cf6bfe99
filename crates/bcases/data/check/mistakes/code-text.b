F main 0 0 0 0 2
c 0
r
E
