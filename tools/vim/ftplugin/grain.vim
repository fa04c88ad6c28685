" Programs of the grain language: :make goes to the mistake that silo names.
if exists("b:did_ftplugin")
  finish
endif
let b:did_ftplugin = 1

setlocal commentstring=#\ %s comments=:# expandtab shiftwidth=2 softtabstop=2
let s:explain = expand("<sfile>:p:h:h:h") . "/explain"
let &l:makeprg = (executable(s:explain) ? fnameescape(s:explain) : "silo-explain") . " %:S"
setlocal errorformat=%f:%l:%c:\ %m,%-G%.%#
let b:undo_ftplugin = "setlocal commentstring< comments< expandtab< shiftwidth< softtabstop< makeprg< errorformat<"
