" Programs, certificates and scripts of Gammonfig.
autocmd BufNewFile,BufRead *.gf setfiletype gammonfig
autocmd BufNewFile,BufRead *.gfs,*.gfc setfiletype gammonfig
