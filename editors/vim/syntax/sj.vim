" The colours of sj files. editors/make.py writes this file, from editors/words.txt.
if exists("b:current_syntax")
  finish
endif
syntax case match
syntax iskeyword a-z,A-Z,48-57,_
syntax keyword sjPart protocol party connect
syntax keyword sjAct send recv delegate outbranch inbranch outwhile inwhile relay let close request accept
syntax keyword sjChoice if else
syntax keyword sjJoint begin to from session
syntax keyword sjKind int boolean String
syntax keyword sjValue true false
syntax keyword sjOperator not
syntax match sjBad '\v[^ \t\r\n]'
syntax match sjSymbol '\v[<=][=]|[<>(){}\x5b\x5d*.,:;+=-]'
syntax match sjWay '\v[!?]'
syntax match sjWord '\v[A-Za-z_][A-Za-z0-9_]*'
syntax match sjLabel '\v[A-Za-z_][A-Za-z0-9_]*\ze[ \t]*:'
syntax match sjNumber '\v[0-9]+'
syntax match sjBad '\v0[0-9]+'
syntax match sjBad '\v"[^"\n]*"?'
syntax match sjText '\v"[ !#-\x5b\x5d-~]*"'
syntax match sjComment '\v//[\t\r -~]*'
highlight default link sjPart Structure
highlight default link sjAct Statement
highlight default link sjChoice Conditional
highlight default link sjJoint Keyword
highlight default link sjKind Type
highlight default link sjValue Boolean
highlight default link sjOperator Operator
highlight default link sjComment Comment
highlight default link sjText String
highlight default link sjNumber Number
highlight default link sjLabel Label
highlight default link sjWord Identifier
highlight default link sjWay Special
highlight default link sjSymbol Delimiter
highlight default link sjBad Error
let b:current_syntax = "sj"
