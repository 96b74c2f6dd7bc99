" Syntax file for KL1 as the programs kl1 and kl1_run read it.
if exists("b:current_syntax")
  finish
endif

syntax case match

" A comment runs from % to the end of its line.
syntax match kl1Comment /%.*$/ contains=kl1Todo,@Spell
syntax keyword kl1Todo TODO FIXME contained

" A quoted name stands on one line; a quote in it stands twice. One that isn't closed is a fault.
syntax match kl1Open /'[^']*$/
syntax match kl1Quoted /'\%([^']\|''\)*'/

syntax match kl1Variable /\<[A-Z_][A-Za-z0-9_]*\>/
syntax match kl1Integer /\<\d\+\>/

" The name of a head, a goal or a structure stands directly before its arguments.
syntax match kl1Name /\<[a-z][A-Za-z0-9_]*\ze(/

syntax match kl1Otherwise /^\s*otherwise\ze\s*\./
syntax match kl1Priority /@\s*priority\>/

" Tests of guards, and goals that are built in.
syntax match kl1BuiltIn /\<\%(wait\|integer\|atom\|list\|atom_from\)\ze(/
syntax match kl1BuiltIn /\<shoen:execute\ze(/
syntax keyword kl1True true

syntax match kl1Operator /:=\|=:=\|=\\=\|=<\|>=\|\\=\|[-+*\/<>=]/
syntax keyword kl1Operator mod
syntax match kl1Neck /:-/
syntax match kl1Module /^\s*:-\s*module\>/
" The bar of a commitment stands outside brackets; in a list it parts off the rest.
syntax match kl1Bar /|/
syntax region kl1List matchgroup=kl1Bracket start=/\[/ end=/\]/ transparent contains=ALLBUT,kl1Bar,kl1Neck,kl1Todo,kl1Module,kl1Otherwise

highlight default link kl1Comment Comment
highlight default link kl1Todo Todo
highlight default link kl1Open Error
highlight default link kl1Quoted String
highlight default link kl1Variable Identifier
highlight default link kl1Integer Number
highlight default link kl1Name Function
highlight default link kl1Module PreProc
highlight default link kl1Otherwise Keyword
highlight default link kl1Priority Special
highlight default link kl1BuiltIn Keyword
highlight default link kl1True Boolean
highlight default link kl1Operator Operator
highlight default link kl1Neck Statement
highlight default link kl1Bar Statement

let b:current_syntax = "kl1"
