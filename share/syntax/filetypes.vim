" The types of files with these endings.
au BufRead,BufNewFile *.rt setfiletype rattle
au BufRead,BufNewFile *.antt setfiletype antt
au BufRead,BufNewFile *.dpv setfiletype dpv
au BufRead,BufNewFile *.pkt setfiletype pkt
