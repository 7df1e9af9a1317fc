" scripts of cordsh: by their name, or by their first line
autocmd BufRead,BufNewFile *.cord setfiletype cordsh
autocmd BufRead,BufNewFile * if !did_filetype() && getline(1) =~# '^#!.*\<cordsh\>' | setfiletype cordsh | endif
