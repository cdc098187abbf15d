autocmd BufRead,BufNewFile *.drl setfiletype drl
