" Syntax of Rattle (.rt): Rust, with contracts.
if exists("b:current_syntax") | finish | endif
runtime! syntax/rust.vim
syn keyword rattleContract requires ensures ghost invariant measure
syn match rattleTerm "[≡≢≤≥λ∷×⊎→↦◌ℕ¬]"
hi def link rattleContract PreProc
hi def link rattleTerm Operator
let b:current_syntax = "rattle"
