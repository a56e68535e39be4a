" Sources for a2 end in .s; this overrides the guess for assembly.
autocmd BufNewFile,BufRead *.s setlocal filetype=a2
