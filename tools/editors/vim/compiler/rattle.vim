" Runs `rt check` in the crate's folder, and reads its messages.
if exists("current_compiler")
  finish
endif
let current_compiler = "rattle"
CompilerSet makeprg=rt\ check
CompilerSet errorformat=%f:%l:%c:\ %trror:\ %m,%f:%l:%c:\ %tote:\ %m,%f:%l:%c:\ %tarning:\ %m
