" Rust's syntax, and the words of contracts.
runtime! syntax/rust.vim
syntax keyword rattleContract ghost requires ensures
syntax match rattleClause "\v<(requires|ensures)\s+\zs\w+\ze\s*\{"
highlight default link rattleContract Keyword
highlight default link rattleClause Identifier
