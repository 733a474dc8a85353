" Syntax of programs of the language pkt (.pkt).
if exists("b:current_syntax") | finish | endif
syn match pktComment "#.*$"
syn region pktText start=+"+ end=+"+ oneline
syn keyword pktControl if else while need drop send next on otherwise
syn keyword pktKeyword const let set def header table ring pool port ports queue segments given include extend count
syn keyword pktKeyword optional after over auto sum length this
syn keyword pktCall mend push pop cut truncate clone chain free new lookup
syn keyword pktWord and or not in
syn match pktNumber "\<\(0x[0-9a-fA-F]\+\|[0-9]\+\)\>"
syn match pktAddress "\<[0-9]\+\.[0-9]\+\.[0-9]\+\.[0-9]\+\(\/[0-9]\+\)\?\>"
syn match pktAddress "\<\x\x\(:\x\x\)\{5}\>"
hi def link pktComment Comment
hi def link pktText String
hi def link pktControl Conditional
hi def link pktKeyword Keyword
hi def link pktCall Function
hi def link pktWord Operator
hi def link pktAddress Constant
hi def link pktNumber Number
let b:current_syntax = "pkt"
