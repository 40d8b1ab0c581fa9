" A file .xs is a script of xstate where its first line says so; Perl's XS has the same ending.
autocmd BufRead,BufNewFile *.xs if getline(1) ==# 'xstate 1' | set filetype=xstate | endif
