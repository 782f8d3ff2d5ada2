if exists("b:did_ftplugin")
  finish
endif
let b:did_ftplugin = 1
setlocal commentstring=(*\ %s\ *)
setlocal expandtab shiftwidth=2
if executable("lens")
  compiler lens
endif
let b:undo_ftplugin = "setlocal commentstring< expandtab< shiftwidth<"
