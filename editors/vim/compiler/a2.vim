" :compiler a2, then :make checks the file in the window, lists all errors with their fixes, and jumps to the first.
" g:a2_program names the program if it is not a2lab on the path.
if exists("current_compiler")
  finish
endif
let current_compiler = "a2"

let &l:makeprg = shellescape(get(g:, "a2_program", "a2lab")) . " check --format short %:S"
CompilerSet errorformat=%f:%l:%c:\ %trror:\ %m,%f:\ %trror:\ %m
