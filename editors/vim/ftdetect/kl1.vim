autocmd BufNewFile,BufRead *.kl1 setfiletype kl1
