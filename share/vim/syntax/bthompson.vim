" The language B of 1972. Written by tools/editors.
" In edition 2 there are two keywords more.
if exists("b:current_syntax")
  finish
endif
syntax case match
syntax match bOperator #=!=\|=<<\|=<=\|===\|=>=\|=>>\|!=\|++\|--\|<<\|<=\|=%\|=&\|=\*\|=+\|=-\|=\/\|=<\|==\|=>\|=|\|>=\|>>\|!\|%\|&\|\*\|+\|-\|\/\|:\|<\|=\|>\|?\||#
syntax keyword bKeyword auto extrn case if else while switch goto return
if bthompson#edition() == 2
  syntax keyword bKeyword break default
endif
syntax keyword bLibrary char lchar getchar putchar printn exit
syntax match bNumber "\<\d\+\>"
syntax match bBadNumber "\<0\d*[89]\d*\>"
syntax match bEscape +\*[0e()nt*'"]+ contained
syntax match bBadEscape +\*[^0e()nt*'"]+ contained
syntax region bString start=+"+ skip=+\*.+ end=+"+ oneline contains=bEscape,bBadEscape
syntax region bCharacter start=+'+ skip=+\*.+ end=+'+ oneline contains=bEscape,bBadEscape
syntax region bComment start="/\*" end="\*/"
highlight default link bOperator Operator
highlight default link bKeyword Keyword
highlight default link bLibrary Function
highlight default link bNumber Number
highlight default link bBadNumber Error
highlight default link bBadEscape Error
highlight default link bEscape Special
highlight default link bString String
highlight default link bCharacter String
highlight default link bComment Comment
let b:current_syntax = "bthompson"
