" (a file for a machine has the same ending, and begins with these bytes)
autocmd BufRead,BufNewFile *.elf if getline(1)[:3] !=# "\x7fELF" | setlocal filetype=mmt | endif
