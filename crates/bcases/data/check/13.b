n "ab
;
