" Colours of Expresso's monitor and client files.
if exists('b:current_syntax')
  finish
endif

syntax case match
syntax sync fromstart

" Of items that begin at one place, the one that is defined last is taken: so a name is no keyword.
syntax match expressoError /[^ \t\r]/
syntax match expressoName /\h\w*/
syntax match expressoCall /\h\w*\%(\s*(\)\@=/
syntax match expressoAssigned /\h\w*\%(\s*==\@!\)\@=/

" Names behind the word that declares them.
syntax match expressoMonitorName /\h\w*/ contained
syntax match expressoClientName /\h\w*/ contained
syntax match expressoMethodName /\h\w*/ contained nextgroup=expressoInputs skipwhite skipempty
syntax match expressoConstant /\h\w*/ contained
syntax match expressoParameter /\h\w*/ contained
syntax match expressoField /\h\w*/ contained
syntax match expressoLocal /\h\w*/ contained
syntax match expressoInputError /[^ \t\r(){};]/ contained
syntax match expressoInput /\h\w*/ contained
syntax match expressoInputSign /[(,]/ contained

syntax match expressoNumber /\d\+/
syntax match expressoTooLong /\h\w\{32,}\|\d\{33,}/
syntax match expressoOperator /==\|!=\|<=\|>=\|&&\|||\|[-=<>!+*]/
syntax match expressoDelimiter /[{}();,]/
syntax match expressoComment +//.*+ contains=@Spell

syntax match expressoStatement /\%(waituntil\|return\|try\)\w\@!/
" `asserts` is a word ahead of a guard alone: before a parenthesis, and not in a call.
syntax match expressoAsserts /asserts\%(\s*(\)\@=\%(\s*([^;{}]*)\s*;\)\@!/
" `param` and `where` are words ahead of a name that is declared and of a condition alone.
syntax match expressoParam /param\%(\s\+\h\w*\s*=\)\@=/ nextgroup=@expressoWord,expressoParameter skipwhite
syntax match expressoWhere /where\%(\s*(\s*\h\w*\s*[=<>]\)\@=/
syntax match expressoConditional /\%(if\|else\)\w\@!/
syntax match expressoRepeat /repeat\w\@!/
syntax match expressoBoolean /\%(true\|false\)\w\@!/
syntax match expressoStructure /monitor\w\@!/ nextgroup=@expressoWord,expressoMonitorName skipwhite skipempty
syntax match expressoStructure /client\w\@!/ nextgroup=@expressoWord,expressoClientName skipwhite skipempty
syntax match expressoStructure /method\w\@!/ nextgroup=@expressoWord,expressoMethodName skipwhite skipempty
syntax match expressoStorage /const\w\@!/ nextgroup=@expressoWord,expressoConstant skipwhite skipempty
syntax match expressoStorage /local\w\@!/ nextgroup=expressoLocalType skipwhite skipempty
syntax match expressoType /\%(int\|bool\)\w\@!/ nextgroup=@expressoWord,expressoField skipwhite skipempty
syntax match expressoLocalType /\%(int\|bool\)\w\@!/ contained nextgroup=@expressoWord,expressoLocal skipwhite
      \ skipempty
syntax match expressoInputType /\%(int\|bool\)\w\@!/ contained
syntax cluster expressoKeyword contains=expressoStatement,expressoConditional,expressoRepeat,expressoBoolean,
      \expressoStructure,expressoStorage
syntax cluster expressoWord contains=@expressoKeyword,expressoType,expressoTooLong
syntax region expressoInputs matchgroup=expressoDelimiter start=/(/ end=/)/ end=/[{};]\@=/ contained
      \ contains=@expressoKeyword,expressoInput,expressoInputError,expressoInputSign,expressoInputType,
      \expressoNumber,expressoTooLong,expressoOperator,expressoComment

highlight default link expressoComment Comment
highlight default link expressoError Error
highlight default link expressoInputError Error
highlight default link expressoTooLong Error
highlight default link expressoStructure Structure
highlight default link expressoStorage StorageClass
highlight default link expressoType Type
highlight default link expressoLocalType Type
highlight default link expressoInputType Type
highlight default link expressoStatement Statement
highlight default link expressoAsserts Statement
highlight default link expressoParam StorageClass
highlight default link expressoWhere Statement
highlight default link expressoConditional Conditional
highlight default link expressoRepeat Repeat
highlight default link expressoBoolean Boolean
highlight default link expressoNumber Number
highlight default link expressoOperator Operator
highlight default link expressoDelimiter Delimiter
highlight default link expressoInputSign Delimiter
highlight default link expressoMonitorName Typedef
highlight default link expressoClientName Typedef
highlight default link expressoMethodName Function
highlight default link expressoCall Function
highlight default link expressoConstant Constant
highlight default link expressoParameter Constant
highlight default link expressoField Identifier
highlight default link expressoLocal Identifier
highlight default link expressoInput Identifier
highlight default link expressoAssigned Identifier
highlight default link expressoName Identifier

let b:current_syntax = 'expresso'
