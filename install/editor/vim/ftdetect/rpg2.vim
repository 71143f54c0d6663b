autocmd BufNewFile,BufRead *.rpg setfiletype rpg2
