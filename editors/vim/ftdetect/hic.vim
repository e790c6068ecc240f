autocmd BufRead,BufNewFile *.hic setfiletype hic
