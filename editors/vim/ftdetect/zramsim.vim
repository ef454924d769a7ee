autocmd BufRead,BufNewFile *.job setfiletype zramsim
