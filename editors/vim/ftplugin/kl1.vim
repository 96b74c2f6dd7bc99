" Settings for the windows of KL1 files.
if exists("b:did_ftplugin")
  finish
endif
let b:did_ftplugin = 1

" A comment runs from % to the end of its line; its text stands in place of %s.
setlocal comments=:%
setlocal commentstring=%%s

let b:undo_ftplugin = "setlocal comments< commentstring<"
