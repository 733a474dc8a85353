" Syntax of node programs (.dpv).
if exists("b:current_syntax") | finish | endif
syn match dpvComment "#.*$"
syn match dpvLabel "[A-Za-z_][A-Za-z0-9_]*:"
syn keyword dpvMove set mov load loadx store storex iflen iflast ifhead iftail lookup
syn keyword dpvMath add sub and or xor shl shr
syn keyword dpvJump jmp jeq jlt exit tx enq
syn keyword dpvPacket alloc clone free prepend adj append trim chain
syn match dpvRegister "\<[pr][0-7]\>"
syn match dpvNumber "\<\(0x[0-9a-fA-F]\+\|[0-9]\+\)\>"
hi def link dpvComment Comment
hi def link dpvLabel Label
hi def link dpvMove Statement
hi def link dpvMath Operator
hi def link dpvJump Conditional
hi def link dpvPacket Function
hi def link dpvRegister Identifier
hi def link dpvNumber Number
let b:current_syntax = "dpv"
