autocmd BufNewFile,BufRead *.caa setfiletype caa
