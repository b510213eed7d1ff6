" Takes what gammonfig finds into the quickfix list: `:compiler gammonfig`, then `:make verdict %` or another of its commands.
if exists("current_compiler")
  finish
endif
let current_compiler = "gammonfig"

CompilerSet makeprg=gammonfig
CompilerSet errorformat=%f:%l:%c:\ %trror:\ %m,%f:%l:%c:\ %tarning:\ %m,%f:%l:%c:\ %tote:\ %m,%-G%.%#
