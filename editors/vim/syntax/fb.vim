" Vim syntax file
" Language: applications of fbr (IEC 61499 function blocks, Structured Text in algorithms)
" Copy editors/vim/* into ~/.vim, or add the folder to 'runtimepath'.

if exists("b:current_syntax")
  finish
endif

syntax case ignore
syntax sync fromstart

" Words that begin and end the parts of a text.
syntax keyword fbStructure FUNCTION_BLOCK END_FUNCTION_BLOCK SYSTEM END_SYSTEM DEVICE END_DEVICE RESOURCE END_RESOURCE
syntax keyword fbSection EVENT_INPUT EVENT_OUTPUT END_EVENT VAR_INPUT VAR_OUTPUT VAR END_VAR
syntax keyword fbSection EC_STATES END_STATES EC_TRANSITIONS END_TRANSITIONS ALGORITHM END_ALGORITHM
syntax keyword fbSection FBS END_FBS EVENT_CONNECTIONS DATA_CONNECTIONS END_CONNECTIONS

" Statements and clauses.
syntax keyword fbConditional IF THEN ELSIF ELSE END_IF CASE OF END_CASE
syntax keyword fbRepeat FOR BY DO END_FOR
syntax keyword fbClause WITH TO ARRAY
syntax keyword fbOperatorWord AND OR XOR NOT MOD
syntax keyword fbBoolean TRUE FALSE

" IN, ST and EVENT are words only where the grammar has them.
syntax match fbClause "\<IN\_s\+ST\ze\_s*:"
syntax match fbClause ":\_s*\zsEVENT\>"

" Types that are there. Types of values are matches, so that a literal that begins with one wins.
syntax keyword fbService INPUT OUTPUT PUBLISH SUBSCRIBE E_DELAY E_CYCLE E_RESTART
syntax keyword fbEventBlock E_SPLIT E_MERGE E_PERMIT E_SELECT E_SWITCH E_SR E_CTU
syntax match fbType "\<\%(BOOL\|SINT\|INT\|DINT\|LINT\|USINT\|UINT\|UDINT\|TIME\)\>"

syntax match fbFunction "\<\%(ABS\|MIN\|MAX\|LIMIT\)\ze\_s*("
syntax match fbFunction "\<\%(BOOL\|SINT\|INT\|DINT\|LINT\|USINT\|UINT\|UDINT\|TIME\)_TO_\%(SINT\|INT\|DINT\|LINT\|USINT\|UINT\|UDINT\|TIME\)\ze\_s*("

syntax match fbOperator ":=\|->\|\.\.\|<=\|>=\|<>\|[-=<>+*/&]"

" Literals: numbers, typed numbers, times.
syntax match fbNumber "\<\d\+\%(_\d\+\)*\>"
syntax match fbNumber "\<2#[01]\+\%(_[01]\+\)*\>"
syntax match fbNumber "\<8#\o\+\%(_\o\+\)*\>"
syntax match fbNumber "\<16#\x\+\%(_\x\+\)*\>"
syntax match fbNumber "\<\%(SINT\|INT\|DINT\|LINT\|USINT\|UINT\|UDINT\)#-\?\%(2#[01]\+\%(_[01]\+\)*\|8#\o\+\%(_\o\+\)*\|16#\x\+\%(_\x\+\)*\|\d\+\%(_\d\+\)*\)\>"
syntax match fbTime "\<\%(T\|TIME\)#-\?\d\+\%(ms\|[dhms]\)\%(_\?\d\+\%(ms\|[dhms]\)\)*\>"

" Comments do not nest.
syntax keyword fbTodo contained TODO FIXME XXX
syntax region fbComment start="(\*" end="\*)" contains=fbTodo,@Spell

highlight default link fbStructure Structure
highlight default link fbSection Keyword
highlight default link fbConditional Conditional
highlight default link fbRepeat Repeat
highlight default link fbClause Statement
highlight default link fbOperatorWord Operator
highlight default link fbOperator Operator
highlight default link fbBoolean Boolean
highlight default link fbService Special
highlight default link fbEventBlock Special
highlight default link fbType Type
highlight default link fbFunction Function
highlight default link fbNumber Number
highlight default link fbTime Number
highlight default link fbTodo Todo
highlight default link fbComment Comment

let b:current_syntax = "fb"
