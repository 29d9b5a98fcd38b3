autocmd BufRead,BufNewFile *.script setfiletype luvogqa
autocmd BufRead,BufNewFile *.let setfiletype luvogqa_let
