" RPG II cards: the name of the column range under the cursor in the status line, and :make by `rpg2 check`.
setlocal textwidth=0 expandtab colorcolumn=6,15,18,28,33,43,49,54,60,81 ruler
setlocal statusline=%f\ card\ %l\ column\ %c\ %{Rpg2Range()}
setlocal makeprg=rpg2\ check\ %\ --faults\ 999
setlocal errorformat=%f:%l:%c:\ %trror:\ %m,%f:%l:%c:\ %tarning:\ %m,%f:%l:%c:\ %tote:\ %m,%-G%.%#

" The ranges of each sheet, by the form type in column 6: first column, last column, name.
let s:ranges = {
\ 'F': [[7,14,'file name'],[15,15,'file type'],[16,16,'designation'],[17,17,'end of file'],[18,18,'sequence'],[19,19,'format'],
\       [24,27,'record length'],[33,34,'overflow indicator'],[40,46,'device']],
\ 'E': [[27,32,'name'],[33,35,'entries a card'],[36,39,'entries'],[40,42,'length'],[44,44,'decimals'],[45,45,'sequence'],
\       [46,51,'alternating name'],[52,54,'length'],[56,56,'decimals'],[57,57,'sequence']],
\ 'I': [[7,14,'file name'],[15,16,'sequence'],[19,20,'record indicator'],[21,24,'code 1: position'],[25,25,'code 1: not'],
\       [26,26,'code 1: C'],[27,27,'code 1: character'],[28,34,'code 2'],[35,41,'code 3'],[44,47,'from'],[48,51,'to'],
\       [52,52,'decimals'],[53,58,'field name'],[59,60,'control level'],[61,62,'match field'],[65,66,'plus'],[67,68,'minus'],
\       [69,70,'zero or blank']],
\ 'C': [[7,8,'control level'],[9,11,'condition 1'],[12,14,'condition 2'],[15,17,'condition 3'],[18,27,'factor 1'],
\       [28,32,'operation'],[33,42,'factor 2'],[43,48,'result field'],[49,51,'length'],[52,52,'decimals'],[53,53,'half adjust'],
\       [54,55,'plus or high'],[56,57,'minus or low'],[58,59,'zero or equal'],[60,74,'comment']],
\ 'O': [[7,14,'file name'],[15,15,'line type'],[17,17,'space before'],[18,18,'space after'],[19,20,'skip before'],
\       [21,22,'skip after'],[23,25,'condition 1'],[26,28,'condition 2'],[29,31,'condition 3'],[32,37,'field name'],
\       [38,38,'edit code'],[39,39,'blank after'],[40,43,'end position'],[45,70,'constant or edit word']] }

function! Rpg2Range() abort
  let l:form = matchstr(getline('.'), '\%6c.')
  for [l:first, l:last, l:name] in get(s:ranges, l:form, [])
    if col('.') >= l:first && col('.') <= l:last
      return l:name . ' (' . l:first . '-' . l:last . ')'
    endif
  endfor
  return ''
endfunction
