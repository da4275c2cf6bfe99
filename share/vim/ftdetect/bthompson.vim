" Written by tools/editors.
autocmd BufRead,BufNewFile *.b set filetype=bthompson
