" Vim syntax file
" Language: tempura, executable interval temporal logic

if exists("b:current_syntax")
  finish
endif

syntax case match

" The 35 words that are no names.
syntax keyword tempuraConditional if then else
syntax keyword tempuraRepeat while do repeat until for
syntax keyword tempuraQuantifier forall exists
syntax keyword tempuraDefine define run
syntax keyword tempuraBoolean true false
syntax keyword tempuraWordOperator and or not div mod
syntax keyword tempuraTemporal empty more skip next always keep fin halt stable sometimes gets len list proj
syntax keyword tempuraDevice input display

" Of matches that begin at one place the last one is taken: a lower-case name in front of a parenthesis is a call.
syntax match tempuraStatic "\<\l\w*\>"
syntax match tempuraCall "\<\l\w*\>\ze\_s*("
syntax match tempuraState "\<\u\w*\>"
syntax match tempuraNumber "\<\d\+\>"

syntax match tempuraOperator "[-+*=<>|;]"
syntax match tempuraOperator ":=\|<-\|<=\|>=\|<>"
syntax match tempuraDelimiter "[][(){},.]\|:=\@!"

" There are no comments inside of comments.
syntax keyword tempuraTodo contained TODO FIXME XXX
syntax region tempuraComment start="/\*" end="\*/" contains=tempuraTodo,@Spell
syntax sync ccomment tempuraComment

highlight default link tempuraConditional Conditional
highlight default link tempuraRepeat Repeat
highlight default link tempuraQuantifier Repeat
highlight default link tempuraDefine Define
highlight default link tempuraBoolean Boolean
highlight default link tempuraWordOperator Operator
highlight default link tempuraTemporal Statement
highlight default link tempuraDevice Special
highlight default link tempuraStatic Constant
highlight default link tempuraCall Function
highlight default link tempuraState Identifier
highlight default link tempuraNumber Number
highlight default link tempuraOperator Operator
highlight default link tempuraDelimiter Delimiter
highlight default link tempuraTodo Todo
highlight default link tempuraComment Comment

let b:current_syntax = "tempura"
