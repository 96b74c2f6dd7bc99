" Compiler file for KL1: :make checks the file of the window, and jumps to errors and warnings.
if exists("current_compiler")
  finish
endif
let current_compiler = "kl1"

if exists(":CompilerSet") != 2
  command -nargs=* CompilerSet setlocal <args>
endif

CompilerSet makeprg=kl1_run\ --check\ %:S
CompilerSet errorformat=%f:%l:%c:\ %trror:\ %m,%f:%l:%c:\ %tarning:\ %m,%-G\ \ \ \ %.%#
