" Comments, indentation, and the messages of `maestro check` for :make and the quickfix list.
if exists("b:did_ftplugin")
  finish
endif
let b:did_ftplugin = 1

setlocal comments=:# commentstring=#\ %s
setlocal shiftwidth=2 expandtab
setlocal makeprg=MAESTRO_TELL=faults\ maestro\ check\ %:S
setlocal errorformat=%f:%l:%c:\ error:\ %m,%-G%.%#
let b:undo_ftplugin = "setlocal comments< commentstring< shiftwidth< expandtab< makeprg< errorformat<"
