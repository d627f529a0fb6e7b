" Rattle: Rust with contracts (.rt), its definitions and proofs (.antt).
autocmd BufRead,BufNewFile *.rt setfiletype rattle
autocmd BufRead,BufNewFile *.antt setfiletype antt
