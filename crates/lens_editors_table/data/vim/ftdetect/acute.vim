autocmd BufRead,BufNewFile *.ac,*.mod setfiletype acute
