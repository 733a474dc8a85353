" Syntax of definitions and proofs (.antt).
if exists("b:current_syntax") | finish | endif
syn match anttComment "--.*$"
syn keyword anttKeyword use pub mod module record where data abbrev unfoldable open infix let in case elim rw subst by unfolding if then else
syn keyword anttTactic omega simp arith refl
syn match anttTerm "[≡≢≤≥<λ∷×⊎→↦∃∀¬∙◌]"
syn match anttType "\<\u[A-Za-z0-9_]*\>"
syn match anttType "[ℕ⊤⊥]"
syn match anttNumber "\<[0-9]\+\>"
hi def link anttComment Comment
hi def link anttKeyword Keyword
hi def link anttTactic Function
hi def link anttTerm Operator
hi def link anttType Type
hi def link anttNumber Number
let b:current_syntax = "antt"
