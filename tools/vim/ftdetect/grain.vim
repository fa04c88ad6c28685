autocmd BufRead,BufNewFile *.grain setfiletype grain
