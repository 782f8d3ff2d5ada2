" :make explains the file, and the quickfix list has the places.
let current_compiler = "lens"
CompilerSet makeprg=lens\ explain\ %:S
CompilerSet errorformat=%f:%l:%c:\ refused:\ %m,%-G%.%#
