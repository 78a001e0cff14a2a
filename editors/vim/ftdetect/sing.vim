autocmd BufNewFile,BufRead *.sg setfiletype sing
