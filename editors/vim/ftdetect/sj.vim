" editors/make.py writes this file.
autocmd BufRead,BufNewFile *.sj setfiletype sj
