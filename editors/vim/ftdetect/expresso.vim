" A monitor file begins with `monitor`, and a client file with `client`. Other languages have files of
" these endings too, so the first word decides, behind empty lines and comments.
function! s:detect() abort
  let lines = filter(getline(1, '$'), 'v:val !~# ''^\s*\%(//.*\)\?$''')
  if empty(lines) || lines[0] =~# '^\s*\%(monitor\|client\)\w\@!'
    set filetype=expresso
  endif
endfunction

autocmd BufNewFile,BufRead *.mon,*.cl call s:detect()
