" M, the language of the French income tax. The reserved words are those of python/vodmejka/words/m.words; tests/documents.sh compares them.
if exists("b:current_syntax")
  finish
endif
syn case match
syn iskeyword 48-57,65-90,95,97-122

syn keyword mtaxItem regle verif application enchaineur
syn keyword mtaxDeclaration saisie calculee const tableau alias type
syn keyword mtaxControl si alors sinon finsi erreur pour un dans
syn keyword mtaxWordOperator et ou non
syn keyword mtaxFunction somme present positif positif_ou_nul null arr inf abs max min
syn keyword mtaxKind anomalie discordance informative
syn keyword mtaxCell X
syn match mtaxNumber "\<[0-9]\+\(\.[0-9]\+\)\=\>"
syn match mtaxSign "\.\.\|!=\|<=\|>=\|[-+*/=<>]"
syn match mtaxComment "#.*$" contains=@Spell
syn region mtaxText start=+"+ end=+"+ contains=@Spell

hi def link mtaxItem Statement
hi def link mtaxDeclaration Type
hi def link mtaxControl Conditional
hi def link mtaxWordOperator Operator
hi def link mtaxFunction Function
hi def link mtaxKind Exception
hi def link mtaxCell Special
hi def link mtaxNumber Number
hi def link mtaxSign Operator
hi def link mtaxComment Comment
hi def link mtaxText String

setlocal commentstring=#\ %s
let b:current_syntax = "mtax"
