" The grain language, as docs/LANGUAGE.md tells it.
if exists("b:current_syntax")
  finish
endif

syntax match grainComment /#.*$/ contains=grainTodo
syntax keyword grainTodo TODO FIXME XXX contained
syntax keyword grainDeclared type field method nextgroup=grainName skipwhite
syntax match grainName /\<[a-z][a-z0-9_]*\>/ contained
syntax keyword grainStatement let set return fail call
syntax keyword grainChoice if else while attempt
syntax keyword grainKey key
" An option and a kind stand between a method's parameters and its block.
syntax match grainOption /\<\%(create\|join\|createorjoin\|suppress\|supported\|notallowed\)\>\ze\s\+\%(read\|update\|plain\)\>/ nextgroup=grainKind skipwhite
syntax match grainKind /\<\%(read\|update\|plain\)\>/ contained
syntax match grainNumber /\<\%(0\|[1-9][0-9]*\)\>/
syntax match grainText /"[^"\\]*"/ oneline
syntax match grainCallee /\<[a-z][a-z0-9_]*\ze\//
" What the language doesn't have.
syntax match grainWrong /\/\/.*$\|\/\*\|++\|+=\|-=\|\<[a-z_]*[A-Z]\w*/

highlight default link grainComment Comment
highlight default link grainTodo Todo
highlight default link grainDeclared Structure
highlight default link grainName Identifier
highlight default link grainStatement Statement
highlight default link grainChoice Conditional
highlight default link grainKey Special
highlight default link grainOption StorageClass
highlight default link grainKind Type
highlight default link grainNumber Number
highlight default link grainText String
highlight default link grainCallee Type
highlight default link grainWrong Error

let b:current_syntax = "grain"
