" Indentation of Expresso's monitor and client files, as `expresso check` lays monitors out.
if exists('b:did_indent')
  finish
endif
let b:did_indent = 1

setlocal indentexpr=ExpressoIndent() indentkeys=0{,0},0),!^F,o,O,0=local,0=waituntil,0=asserts
let b:undo_indent = 'setlocal indentexpr< indentkeys<'

if exists('*ExpressoIndent')
  finish
endif

" Whether a sign at the cursor stands in a comment.
let s:in_comment = 'getline(".")[: col(".") - 1] =~# "//"'

" The indentation of what opens the brace at the cursor: of the guard's line, where one stands before it.
function! s:opener() abort
  if getline('.')[: col('.') - 1] =~# ')\s*{$' && search(')', 'bcW') > 0
    call searchpair('(', '', ')', 'bW', s:in_comment)
  endif
  return indent('.')
endfunction

" `asserts` ahead of a guard, and not in a call.
let s:asserts = 'asserts\%(\s*(\)\@=\%(\s*([^;{}]*)\s*;\)\@!'

" One level deeper inside braces and parentheses; `local`, `waituntil` and `asserts` are one deeper than their
" method.
function! ExpressoIndent() abort
  let line = getline(v:lnum)
  call cursor(v:lnum, 1)
  let parenthesis = searchpairpos('(', '', ')', 'bnW', s:in_comment)
  if searchpair('{', '', '}', 'bW', s:in_comment) <= 0
    return parenthesis[0] > 0 ? indent(parenthesis[0]) + shiftwidth() : 0
  endif
  if parenthesis[0] > line('.') || parenthesis[0] == line('.') && parenthesis[1] > col('.')
    return indent(parenthesis[0]) + shiftwidth()
  endif
  let outer = s:opener()
  if line =~# '^\s*}'
    return outer
  endif
  return outer + shiftwidth() * (line =~# '^\s*\%(\%(local\|waituntil\)\w\@!\|' . s:asserts . '\)' ? 2 : 1)
endfunction
