" Written by tools/editors.
" The options of a source stand in a comment in its first line: /* b: --edition 2 --with print */
" g:b_edition is the edition of a source that doesn't tell its own.
let s:comment = '/\* b:\(\%( --\%(edition [12]\|with [A-Za-z0-9_./-]\+\)\)\+\) \*/'

function! s:Options(name) abort
  let words = split(get(matchlist(getline(1), s:comment), 1, ''))
  return map(filter(copy(range(0, len(words) - 1, 2)), 'words[v:val] ==# a:name'), 'words[v:val + 1]')
endfunction

function! bthompson#edition() abort
  return get(s:Options('--edition'), 0, get(g:, 'b_edition', 1))
endfunction

" A path is one from the folder of the file.
function! s:Path(lib) abort
  return a:lib[0] ==# '/' ? a:lib : expand('%:h') . '/' . a:lib
endfunction

function! s:Lib(lib) abort
  return a:lib =~# '[./]' ? escape(shellescape(s:Path(a:lib)), '%#<|') : a:lib
endfunction

" A pipe or a device that a project names is never opened.
function! s:IsOdd(lib) abort
  return a:lib =~# '[./]' && index(['', 'file'], getftype(resolve(s:Path(a:lib)))) < 0
endfunction

function! bthompson#check() abort
  let odd = filter(s:Options('--with'), 's:IsOdd(v:val)')
  if !empty(odd)
    return 'echo ' . odd[0] . ' is no plain file'
  endif
  let libs = map(s:Options('--with'), '"--with " . s:Lib(v:val)')
  return join(['b check --edition', bthompson#edition()] + libs + ['-- %:S'])
endfunction

function! bthompson#format() abort
  let lines = systemlist('b format --edition ' . bthompson#edition() . ' /dev/stdin', getline(1, '$'))
  if v:shell_error
    echo join(lines, "\n")
    return
  endif
  let view = winsaveview()
  call setline(1, lines)
  if line('$') > max([len(lines), 1])
    silent execute (len(lines) + 1) . ',$delete _'
  endif
  call winrestview(view)
endfunction
