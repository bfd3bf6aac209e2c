" Applications of fbr.
autocmd BufNewFile,BufRead *.fb set filetype=fb
