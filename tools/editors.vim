" What Vim makes of the files of this folder, for tools/editors.py: the colours of each byte, the indentation that lines
" without any get, and the language that is found.
set encoding=latin1 fileencodings= fileformats=unix synmaxcol=0 nomodeline noswapfile
let &runtimepath = $EDITOR . ',' . $VIMRUNTIME
filetype plugin indent on
syntax on

" The group of each byte of a line; `-` for a blank, and for none.
function! Groups(number) abort
  let line = getline(a:number)
  let found = []
  for column in range(1, len(line))
    let group = line[column - 1] =~# '\s' ? 0 : synID(a:number, column, 1)
    call add(found, group == 0 ? '-' : synIDattr(group, 'name'))
  endfor
  return join(found)
endfunction

function! Open(path) abort
  execute 'edit!' a:path
  setlocal filetype=expresso
endfunction

function! Run() abort
  for path in glob('*.coloured', 0, 1)
    call Open(path)
    call writefile(map(range(1, line('$')), 'Groups(v:val)'), path . '.groups')
  endfor
  for path in glob('*.indented', 0, 1)
    call Open(path)
    silent %left
    silent normal! gg=G
    call writefile(getline(1, '$'), path . '.lines')
  endfor
  for path in glob('*.mon', 0, 1) + glob('*.cl', 0, 1)
    execute 'edit!' path
    call writefile([&filetype], path . '.language')
  endfor
endfunction

try
  call Run()
catch
  call writefile([v:throwpoint, v:exception], 'failed')
  cquit!
endtry
qall!
