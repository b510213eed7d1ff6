" Vim syntax file: programs (.gf), scripts (.gfs) and certificates (.gfc) of Gammonfig (docs/language.md, docs/certificate.md)
if exists("b:current_syntax")
  finish
endif

syntax keyword gammonfigDeclaration class property signal slot native wire owns binding
syntax keyword gammonfigPart notify reads emits sets
syntax keyword gammonfigStatement set emit call connect disconnect delete later
syntax keyword gammonfigConditional if else
syntax keyword gammonfigConstant true false null this
syntax keyword gammonfigModifier const auto direct queued unique single
syntax keyword gammonfigType int bool QString QObject
" Words that begin the other events of a script, or a line of a certificate, and are names elsewhere.
syntax match gammonfigEvent /^\s*\zs\(loop\|turn\|new\|adopt\|move\|bind\|block\|unblock\|certificate\|bound\|settling\|round\)\>/
" A name, with which a statement may begin.
syntax match gammonfigGroup /\(^\|[;{}]\)\s*\zs\(group\)\ze\s*{/
syntax match gammonfigNumber /\<\d\+\>/
syntax match gammonfigText /"[^"]*"/
syntax match gammonfigComment /\/\/.*$/ contains=gammonfigTodo
syntax keyword gammonfigTodo TODO FIXME contained
syntax match gammonfigBetween /^%%$/

highlight default link gammonfigDeclaration Keyword
highlight default link gammonfigPart Keyword
highlight default link gammonfigStatement Statement
highlight default link gammonfigConditional Conditional
highlight default link gammonfigConstant Constant
highlight default link gammonfigModifier StorageClass
highlight default link gammonfigType Type
highlight default link gammonfigEvent Statement
highlight default link gammonfigGroup Statement
highlight default link gammonfigNumber Number
highlight default link gammonfigText String
highlight default link gammonfigComment Comment
highlight default link gammonfigTodo Todo
highlight default link gammonfigBetween PreProc

let b:current_syntax = "gammonfig"
