f() { {
break
; } }