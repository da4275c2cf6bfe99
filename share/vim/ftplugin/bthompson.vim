" Written by tools/editors.
compiler bthompson
autocmd BufWritePost <buffer> compiler bthompson
setlocal commentstring=/*%s*/ shiftwidth=4 expandtab
command! -buffer BFormat call bthompson#format()
