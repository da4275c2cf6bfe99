# shellcheck shell=bash disable=SC2154
# The rows in which each call fails in turn, for tools/fail-in-turn and tools/try-web: each is a call of `row` with a
# command, a text and an input. `lib` is the path of a file that comes after the text, and `made` the options with the
# paths of a code text and its lines; both scripts write these files.
row compile 'n 2000;'
row compile $'s "ab", t, \'x\'; t;'
row compile 'f(a) { auto v 1, i; L: v[i] =+ a; switch a { case 2: goto L; } return(i); }'
row go 'main(){auto x; x=5; x=-1; printn(x,10);}'
row go $'main(){auto c; while((c=getchar())!=\'*e\') putchar(c);}' hi
row go $'main() { extrn putchar, n, v; auto i, c, col, a; i = col = 0; while(i<n) v[i++] = 1;
while(col<n) { a = n+1; c = i = 0; while(i<n) { c =+ v[i]*10; v[i++] = c%a; c =/ a--; }
putchar(c+\'0\'); if(!(++col%5)) putchar(col%50?\' \':\'*n\'); } putchar(\'*n*n\'); } v[10]; n 10;'
row run $'X n 1 0\nc 007\nE\n'
row run $'F main 0 0 0 0 2\nc 0\n'
row run 'E'
row run ''
row run $'E\nE\n'
row run $'F f 0 0 1 0 0\nE\n'
row 'run --where' $'X n 1 0\nc 007\nE\n'
row 'run --where' $'F main 0 0 0 0 4\nx prnt\nv\nk 0\nr\nE\n'
row 'run --where' $'F main 0 0 0 0 6\nx putchar\nv\nx getchar\nv\nk 0\nk 1\nE\n' x
row 'run --where --steps 2' $'F main 0 0 0 0 1\nj 0\nE\n'
row compile 'a;a;'
row go 'main(){printn(1/0,10);}'
row verify $'F main 0 0 0 0 1\np\nE\n'
row migrate $'X a 0 0\nX b 1 0\nc 007\nE\n'
row migrate $'X n 1 0\nc 7\nE\n'
row walk ''
reading=$'v[3] 1, 2;\nmain() { extrn v; v[2] = getchar(); f(v[2]); }\nf(a) { auto t; printn(a / 0, 10); }\n'
row list "$reading"
row map "$reading"
row 'map --svg' "$reading"
row 'map --steps 9' "$reading" x
row check "$reading"
row 'check --json' "$reading"
row 'names --json' "$reading"
row trace "$reading" x
row 'trace --steps 12 --from 8 --function f' "$reading" x
row list 'main() { printn(n, 10); }'
row check 'a; main() { printn(n, 10); }'
row check 'a; main() { pritn(42, 10); }'
row 'map --svg' 'f() ;'
row trace 'main() putchar(getchar());'
row 'trace --last 2' 'main() printn(1 / 0, 10);'
row 'go --where' "$reading" x
row try "$reading" x
row try 'main() { auto v 1; 5; putchar(getchar()); v[2] = 5; }' x
row try 'main() { printn(n, 10); }'
row try 'f() ;'
row 'try --steps 9' 'main() while(1) ;'
row 'go --careful' "$reading" x
row 'go --careful' 'main() { auto v 1; putchar(getchar()); v[2] = 5; }' x
row 'go --careful --steps 40' 'main() { auto c; while((c = getchar()) != 4) printn(c, 10); }' xyz
row 'go --careful=warn' 'main() { auto v 1; v[2] = 5; printn(1 / 0, 10); }'
row 'go --where' 'main() { pritn(n, 10); }'
row 'go --where' 'f() ;'
row 'go --where --steps 40' 'main() { auto n; n = 1; while(n) getchar(); }'
row 'trace --steps 20 --last 2' 'main() while(1) ;'
row count "$reading" x
row 'count --json' "$reading" x
row show "$reading" x
row 'show --last 3 --input x' "$reading"
row 'show --careful' 'main() { auto v 1; putchar(getchar()); v[2] = 5; }' x
row 'show --careful --last 3 --input x' "$reading"
row "list $made" $'PUT\nGET\n'
row "trace $made" $'PUT\nGET\n' x
row "count $made" $'PUT\nGET\n' x
for name in list trace count; do
    row "$name --code" $'F main 0 0 0 0 5\nx getchar\nv\nk 0\np\np\nE\n' x
    row "$name --code" $'X n 1 0\nc 007\nE\n'
done
row format "$reading"
row 'format --check' "$reading"
row format 'abcdefghi;'
row "go --with $lib" 'main() f(getchar());' x
row "check --with $lib" 'main() f(1; 2);'
row "list --with $lib" 'main() f(1);'
row "trace --with $lib" 'main() f(getchar());' x
row "count --with $lib" 'main() f(getchar());' x
row "show --with $lib" 'main() f(getchar());' x
row "compile --with $lib" 'main() f(1);'
row "go --where --with $lib" 'main() {'
row "try --with $lib" 'main() f(getchar());' x
row "go --careful --with $lib" 'main() { auto x; f(x); }'
row "trace --with $lib" 'main() {'
row "count --with $lib" 'main() {'
row "show --with $lib" 'main() {'
row "count --with $lib" 'main() exit(1);'
