autocmd BufRead,BufNewFile *.nf setfiletype nf
