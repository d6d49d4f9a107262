" Vim syntax of otp's function files. Copy it to ~/.vim/syntax/ot.vim, and put into ~/.vim/ftdetect/ot.vim:
"   autocmd BufRead,BufNewFile *.ot set filetype=ot
if exists("b:current_syntax")
  finish
endif

" Any other word or sign is none of the language.
syntax match otError /[A-Za-z_][A-Za-z0-9_]*\|[^ \t\r]/
syntax match otNumber /[0-9]\+/
syntax match otOperator /<=\|[<=+\-():]/
syntax keyword otKeyword otfn text kinds assume block case end
syntax keyword otMode plain tomb sites chars differ
syntax keyword otKind ins del upd nop
syntax keyword otName p1 p2 s1 s2 c1 c2
syntax keyword otOperator and or not true
syntax match otComment /#.*/

highlight default link otKeyword Keyword
highlight default link otMode Constant
highlight default link otKind Function
highlight default link otName Identifier
highlight default link otOperator Operator
highlight default link otNumber Number
highlight default link otComment Comment
highlight default link otError Error

let b:current_syntax = "ot"
