" Colours of RPG II cards, by their columns.
if exists('b:current_syntax')
  finish
endif

" Each sheet's columns, then what may stand in any of them: later items come before earlier ones.
syntax match rpg2Form /\%6c[HFEICO]/
syntax match rpg2Indicator /\%7cL[0-9R]\|\%7cSR\|\%7cAN\|\%7cOR/
syntax match rpg2Indicator /\%(^.\{5}C.*\)\@<=\%(\%9c\|\%12c\|\%15c\)[N ]\?[0-9LOHM1][0-9RPA-GV]/
syntax match rpg2Indicator /\%(^.\{5}O.*\)\@<=\%(\%23c\|\%26c\|\%29c\)[N ]\?[0-9LOHM1][0-9RPA-GV]/
syntax match rpg2Operation /\%(^.\{5}C.*\)\@<=\%28c\%(ADD\|SUB\|MULT\|DIV\|MVR\|Z-ADD\|Z-SUB\|XFOOT\|MOVEL\|MOVE\|COMP\|LOKUP\|SETON\|SETOF\|GOTO\|TAG\|EXSR\|BEGSR\|ENDSR\|EXCPT\)/
syntax match rpg2Text /'\%([^']\|''\)*'/
syntax match rpg2Comment /\%(^.\{5}C.*\)\@<=\%60c.*/
syntax match rpg2Comment /\%>80c.*/
syntax match rpg2Comment /^.\{6}\*.*/
syntax region rpg2Data start=/^\*\*/ end=/\%$/

highlight default link rpg2Form Type
highlight default link rpg2Indicator Identifier
highlight default link rpg2Operation Statement
highlight default link rpg2Text String
highlight default link rpg2Comment Comment
highlight default link rpg2Data Constant

let b:current_syntax = 'rpg2'
