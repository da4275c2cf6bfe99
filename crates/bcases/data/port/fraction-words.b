/**/#define MOST 5
main() f(1); # - a remark
f(a) ; # = another one
