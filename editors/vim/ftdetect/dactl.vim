autocmd BufNewFile,BufRead *.dactl setfiletype dactl
