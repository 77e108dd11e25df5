" Colours of programs of koat.
if exists('b:current_syntax')
  finish
endif
setlocal iskeyword=@,48-57,_,$,39,.
syntax case match
syntax keyword koatSection GOAL STARTTERM VAR RULES FUNCTIONSYMBOLS COMPLEXITY
syntax keyword koatTarget Com_1
syntax keyword koatTruth TRUE true
syntax match koatNumber /\<\d\+\>/
syntax match koatSymbol /[A-Za-z_$][A-Za-z0-9_$'.]*\ze\s*(/ contains=koatSection,koatTarget
syntax match koatArrow /->\|-{\|}>\|:|:/
syntax match koatOperator /&&\|\/\\\|>=\|<=\|==\|[-<>=+*^]\ze[^>{]/
syntax match koatWrong /||\|!=\|<>\|=>\|=<\|\<Com_\%(1\>\)\@!\d\+\>/
syntax region koatComment matchgroup=koatComment start=/(\s*COMMENT\>/ end=/)/ contains=koatInner
syntax region koatInner start=/(/ end=/)/ contained contains=koatInner
highlight default link koatSection Keyword
highlight default link koatTarget Keyword
highlight default link koatTruth Boolean
highlight default link koatNumber Number
highlight default link koatSymbol Function
highlight default link koatArrow Operator
highlight default link koatOperator Operator
highlight default link koatWrong Error
highlight default link koatComment Comment
highlight default link koatInner Comment
let b:current_syntax = 'koat'
