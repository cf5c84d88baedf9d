autocmd BufRead,BufNewFile *.tempura setfiletype tempura
