" The language of definitions and proofs.
if exists("b:current_syntax")
  finish
endif
syntax keyword anttKeyword use mod pub as abbrev unfoldable unfolding record data where let in elim do open syntax ruleset infixl infixr
syntax keyword anttTactic search grind omega simp rw assumption cc first_of hlevel arith
syntax match anttOpen "?"
syntax match anttComment "--.*$"
syntax match anttType "\v<\u\w*>"
highlight default link anttKeyword Keyword
highlight default link anttTactic Function
highlight default link anttOpen Todo
highlight default link anttComment Comment
highlight default link anttType Type
let b:current_syntax = "antt"
