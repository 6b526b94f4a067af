" M++, the language of drivers. The reserved words are those of python/vodmejka/words/mpp.words; tests/documents.sh compares them.
if exists("b:current_syntax")
  finish
endif
syn case match
syn iskeyword 48-57,65-90,95,97-122

syn keyword mpptaxControl if else partition with
syn keyword mpptaxCommand del
syn keyword mpptaxWordOperator and or not
syn keyword mpptaxFunction present cast exists
syn match mpptaxRules "\<call_m\>"
syn match mpptaxHead "^[A-Za-z0-9_]\+\ze *( *) *:"
syn match mpptaxNumber "\<[0-9]\+\(\.[0-9]\+\)\=\>"
syn match mpptaxSign "<-\|==\|!=\|<=\|>=\|[-+*/=<>]"
syn match mpptaxTab "\t"
syn match mpptaxComment "#.*$" contains=@Spell

hi def link mpptaxControl Conditional
hi def link mpptaxCommand Statement
hi def link mpptaxWordOperator Operator
hi def link mpptaxFunction Function
hi def link mpptaxRules Special
hi def link mpptaxHead Identifier
hi def link mpptaxNumber Number
hi def link mpptaxSign Operator
hi def link mpptaxTab Error
hi def link mpptaxComment Comment

setlocal expandtab commentstring=#\ %s
let b:current_syntax = "mpptax"
