" Highlighting for dactl. Copy editors/vim into ~/.vim, or: set runtimepath+=REPOSITORY/editors/vim

if exists('b:current_syntax')
  finish
endif

syntax case match
syntax iskeyword @,48-57,_

syntax keyword dactlStructure MODULE ENDMODULE IMPORTS
syntax keyword dactlKeyword SYMBOL PATTERN RULE INITIAL
syntax keyword dactlClass PUBLIC REWRITABLE OVERWRITABLE CREATABLE
syntax keyword dactlAny ANY INT CHAR
syntax keyword dactlArithmetic Arithmetic IAdd ISub IMul IEq ILt True False
syntax match dactlName /\<[A-Z][A-Za-z0-9_]*\>/
syntax match dactlVariable /\<[a-z][A-Za-z0-9_]*\>/
syntax match dactlInteger /-\?\d\+/
syntax match dactlCharacter /'[ -~]'/
syntax match dactlArrow /=>\|->\|:=/
syntax match dactlGroup /[;|]/
syntax match dactlMark /[*^]\|#\+/
syntax region dactlComment start=/{/ end=/}/ contains=dactlTodo
syntax keyword dactlTodo TODO FIXME XXX contained

highlight default link dactlStructure Structure
highlight default link dactlKeyword Keyword
highlight default link dactlClass StorageClass
highlight default link dactlAny Constant
highlight default link dactlArithmetic Function
highlight default link dactlName Type
highlight default link dactlVariable Identifier
highlight default link dactlInteger Number
highlight default link dactlCharacter Character
highlight default link dactlArrow Operator
highlight default link dactlGroup Delimiter
highlight default link dactlMark Special
highlight default link dactlComment Comment
highlight default link dactlTodo Todo

let b:current_syntax = 'dactl'
