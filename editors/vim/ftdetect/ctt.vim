au BufRead,BufNewFile *.ctt setfiletype ctt
